struct Pair {
    a: u32,
    b: u32,
}

const ENDX_naga_oil_mod_XNRQXIZIX: u32 = 4u;

const L: u32 = 5u;

const K: u32 = L + 1u;

@group(0) @binding(0) var<storage, read_write> out: array<u32, 64>;

fn secondX_naga_oil_mod_XNRQXIZIX(x: u32) -> u32 {
    return x * 3u;
}

fn firstX_naga_oil_mod_XNRQXIZIX(x: u32) -> u32 {
    return secondX_naga_oil_mod_XNRQXIZIX(x) + ENDX_naga_oil_mod_XNRQXIZIX;
}

@compute @workgroup_size(1)
fn main() {
    out[0] = firstX_naga_oil_mod_XNRQXIZIX(Pair(K, 2u).a);
}
