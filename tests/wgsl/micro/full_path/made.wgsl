const SIDEX_naga_oil_mod_XONUGC4DFOM5DUYTPPAX = 4u;

@group(0) @binding(0) var<storage, read_write> out: array<u32, 64>;

fn areaX_naga_oil_mod_XONUGC4DFOM5DUYTPPAX(a: u32, b: u32) -> u32 {
    return a * b;
}

@compute @workgroup_size(1)
fn main() {
    out[0] = areaX_naga_oil_mod_XONUGC4DFOM5DUYTPPAX(SIDEX_naga_oil_mod_XONUGC4DFOM5DUYTPPAX, 3u);
}
