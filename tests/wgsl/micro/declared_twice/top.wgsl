#import pond::fish

@group(0) @binding(0) var<storage, read_write> out: array<u32, 64>;

@compute @workgroup_size(1)
fn main() {
    let caught = fish();
    let caught = fish();
    out[0] = caught;
}
