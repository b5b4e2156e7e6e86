var<workgroup> sumX_naga_oil_mod_XORQWY3DZX: atomic<u32>;

@group(0) @binding(0) var<storage, read_write> out: array<u32, 64>;

fn addX_naga_oil_mod_XORQWY3DZX(x: u32) {
    atomicAdd(&sumX_naga_oil_mod_XORQWY3DZX, x);
}

fn totalX_naga_oil_mod_XORQWY3DZX() -> u32 {
    return atomicLoad(&sumX_naga_oil_mod_XORQWY3DZX);
}

@compute @workgroup_size(4)
fn main(@builtin(local_invocation_index) at: u32) {
    addX_naga_oil_mod_XORQWY3DZX(at + 1u);
    workgroupBarrier();
    out[at] = totalX_naga_oil_mod_XORQWY3DZX();
}
