#import kinds::{LAMP, kind}

@group(0) @binding(0) var<storage, read_write> out: array<u32, 64>;

@compute @workgroup_size(1)
fn main() {
    switch kind() {
        case LAMP: {
            out[0] = 1u;
        }
        case 0u, 9u, default: {
            out[0] = 2u;
        }
    }
}
