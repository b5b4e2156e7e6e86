#import sizes::{COUNT, HALF}

@group(0) @binding(0) var<storage, read_write> out: array<u32, 64>;

@compute @workgroup_size(1)
fn main() {
    var parts: array<f32, COUNT>;
    parts[2] = HALF;
    out[0] = u32(parts[2] * 8.0) + COUNT;
}
