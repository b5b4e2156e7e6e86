#import lamp

override fn lamp::power(at: u32) -> u32 {
    return 10u * lamp::power(at);
}

@group(0) @binding(0) var<storage, read_write> out: array<u32, 64>;

@compute @workgroup_size(1)
fn main() {
    out[0] = lamp::power(2u);
    out[1] = lamp::twice(2u);
}
