@group(0) @binding(0) var<storage, read_write> out: array<u32, 64>;

fn at_leastX_naga_oil_mod_XMJXXK3TEOMX(x: u32) -> u32 {
    return max(x, 3u);
}

fn max_1(a: u32, b: u32) -> u32 {
    return 10u * a + b;
}

@compute @workgroup_size(1)
fn main() {
    out[0] = at_leastX_naga_oil_mod_XMJXXK3TEOMX(1u);
    out[1] = max_1(1u, 2u);
}
