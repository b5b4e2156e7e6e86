@group(0) @binding(0) var<storage, read_write> out: array<u32, 64>;

fn powerX_naga_oil_mod_XNRQW24AX() -> u32 {
    return 1u;
}

fn powerX_naga_oil_vrt_XNRQW24AX() -> u32 {
    return 2u;
}

@compute @workgroup_size(1)
fn main() {
    out[0] = powerX_naga_oil_vrt_XNRQW24AX();
}
