#import sign::{sign_of, nothing}

@group(0) @binding(0) var<storage, read_write> out: array<u32, 64>;

@compute @workgroup_size(1)
fn main() {
    nothing(2u);
    out[0] = u32(sign_of(-4) + 1) * 100u + u32(sign_of(0) + 1) * 10u + u32(sign_of(7) + 1);
    return;
}
