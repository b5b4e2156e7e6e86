@group(0) @binding(0) var<storage, read_write> out: array<u32, 64>;

fn heightX_naga_oil_mod_XNRSXMZLMX() -> u32 {
    return 30u;
}

@compute @workgroup_size(1)
fn main() {
    out[0] = heightX_naga_oil_mod_XNRSXMZLMX();
}
