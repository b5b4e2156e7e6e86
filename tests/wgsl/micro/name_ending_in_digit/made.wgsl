struct Lobe2X_naga_oil_mod_XNRXWEZJSX {
    x1: u32,
}

const START1X_naga_oil_mod_XNRXWEZJSX: u32 = 8u;

@group(0) @binding(0) var<storage, read_write> out: array<u32, 64>;

fn of3X_naga_oil_mod_XNRXWEZJSX(lobe1: Lobe2X_naga_oil_mod_XNRXWEZJSX) -> u32 {
    return lobe1.x1 + 3u;
}

@compute @workgroup_size(1)
fn main() {
    var lobe1: Lobe2X_naga_oil_mod_XNRXWEZJSX;
    lobe1.x1 = START1X_naga_oil_mod_XNRXWEZJSX;
    out[0] = of3X_naga_oil_mod_XNRXWEZJSX(lobe1);
}
