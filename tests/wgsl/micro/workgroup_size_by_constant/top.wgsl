#import group::ACROSS

@group(0) @binding(0) var<storage, read_write> out: array<u32, 64>;

@compute @workgroup_size(ACROSS, ACROSS / 2)
fn main(@builtin(local_invocation_index) at: u32) {
    out[at] = at * at;
}
