@group(0) @binding(0) var<storage, read_write> out: array<u32, 64>;

fn powerX_naga_oil_mod_XNRQW24AX(at: u32) -> u32 {
    return at + 1u;
}

fn powerX_naga_oil_vrt_XNRQW24AX(at: u32) -> u32 {
    return 10u * powerX_naga_oil_mod_XNRQW24AX(at);
}

fn twiceX_naga_oil_mod_XNRQW24AX(at: u32) -> u32 {
    return 2u * powerX_naga_oil_vrt_XNRQW24AX(at);
}

@compute @workgroup_size(1)
fn main() {
    out[0] = powerX_naga_oil_vrt_XNRQW24AX(2u);
    out[1] = twiceX_naga_oil_mod_XNRQW24AX(2u);
}
