#import counter::{count, counted}

@group(0) @binding(0) var<storage, read_write> out: array<u32, 64>;

@compute @workgroup_size(1)
fn main() {
    count();
    _ = count();
    out[0] = count() + counted;
    counted = 40u;
    out[1] = count();
}
