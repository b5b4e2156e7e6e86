#import pile::{top, drop}

@group(0) @binding(0) var<storage, read_write> out: array<u32, 64>;

@compute @workgroup_size(1)
fn main() {
    out[0] = top * 100u + drop() * 10u + top;
    var slots = array(1u, 2u, 3u);
    var i = 0u;
    slots[i] = drop() + i;
    let kept = top;
    i++;
    slots[i] += drop() * kept;
    out[1] = slots[0];
    out[2] = slots[1];
    out[3] = top;
}
