#import late::first

@group(0) @binding(0) var<storage, read_write> out: array<u32, 64>;

@compute @workgroup_size(1)
fn main() {
    out[0] = first(Pair(K, 2u).a);
}

struct Pair {
    a: u32,
    b: u32,
}

const K: u32 = L + 1u;
const L: u32 = 5u;
