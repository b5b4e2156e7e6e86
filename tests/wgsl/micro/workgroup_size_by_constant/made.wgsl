const ACROSSX_naga_oil_mod_XM5ZG65LQX = 4;

@group(0) @binding(0) var<storage, read_write> out: array<u32, 64>;

@compute @workgroup_size(4, 2)
fn main(@builtin(local_invocation_index) at: u32) {
    out[at] = at * at;
}
