#import bell::{ring, rung}

@group(0) @binding(0) var<storage, read_write> out: array<u32, 64>;

@compute @workgroup_size(1)
fn main() {
    let a = false && ring();
    out[0] = rung;
    let b = ring() || ring();
    out[1] = rung;
    let c = true && (rung > 7u || ring()) && ring();
    out[2] = rung;
    out[3] = u32(a) + 2u * u32(b) + 4u * u32(c);
}
