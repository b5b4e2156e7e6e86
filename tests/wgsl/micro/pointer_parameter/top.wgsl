#import steps::{advance, Walk}

@group(0) @binding(0) var<storage, read_write> out: array<u32, 64>;

@compute @workgroup_size(1)
fn main() {
    var walk = Walk(4u, array(1u, 2u));
    advance(&walk);
    let second = &walk.taken[1];
    *second *= 5u;
    out[0] = walk.at;
    out[1] = walk.taken[1];
}
