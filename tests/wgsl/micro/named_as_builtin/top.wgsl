#import bounds::at_least

@group(0) @binding(0) var<storage, read_write> out: array<u32, 64>;

fn max(a: u32, b: u32) -> u32 {
    return 10u * a + b;
}

@compute @workgroup_size(1)
fn main() {
    out[0] = at_least(1u);
    out[1] = max(1u, 2u);
}
