#import lobe2::{Lobe2, of3, START1}

@group(0) @binding(0) var<storage, read_write> out: array<u32, 64>;

@compute @workgroup_size(1)
fn main() {
    var lobe1: Lobe2;
    lobe1.x1 = START1;
    out[0] = of3(lobe1);
}
