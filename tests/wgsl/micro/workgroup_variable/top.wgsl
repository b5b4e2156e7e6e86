#import tally::{add, total}

@group(0) @binding(0) var<storage, read_write> out: array<u32, 64>;

@compute @workgroup_size(4)
fn main(@builtin(local_invocation_index) at: u32) {
    add(at + 1u);
    workgroupBarrier();
    out[at] = total();
}
