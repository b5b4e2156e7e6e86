#import heap::{level, raise}

@group(0) @binding(0) var<storage, read_write> out: array<u32, 64>;

@compute @workgroup_size(1)
fn main() {
    raise(5u);
    out[0] = level;
    {
        var level = 100u;
        level += raise(1u);
        out[1] = level;
    }
    out[2] = level;
}
