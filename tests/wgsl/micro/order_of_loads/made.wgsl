var<private> topX_naga_oil_mod_XOBUWYZIX: u32 = 9u;

@group(0) @binding(0) var<storage, read_write> out: array<u32, 64>;

fn dropX_naga_oil_mod_XOBUWYZIX() -> u32 {
    topX_naga_oil_mod_XOBUWYZIX -= 2u;
    return topX_naga_oil_mod_XOBUWYZIX;
}

@compute @workgroup_size(1)
fn main() {
    out[0] = topX_naga_oil_mod_XOBUWYZIX * 100u + dropX_naga_oil_mod_XOBUWYZIX() * 10u + topX_naga_oil_mod_XOBUWYZIX;
    var slots = array(1u, 2u, 3u);
    var i = 0u;
    slots[i] = dropX_naga_oil_mod_XOBUWYZIX() + i;
    let kept = topX_naga_oil_mod_XOBUWYZIX;
    i += 1;
    let value = i;
    slots[value] += dropX_naga_oil_mod_XOBUWYZIX() * kept;
    out[1] = slots[0];
    out[2] = slots[1];
    out[3] = topX_naga_oil_mod_XOBUWYZIX;
}
