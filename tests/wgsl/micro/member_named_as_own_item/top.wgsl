#import ring::{Ring, round}

@group(0) @binding(0) var<storage, read_write> out: array<u32, 64>;

@compute @workgroup_size(1)
fn main() {
    let ring = Ring(9u);
    out[0] = ring.round + round(ring);
}
