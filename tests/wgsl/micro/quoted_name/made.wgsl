@group(0) @binding(0) var<storage, read_write> out: array<u32, 64>;

fn crestX_naga_oil_mod_XEJWGSYRPO5QXMZLTFZ3WO43MEIX(x: u32) -> u32 {
    return x + 5u;
}

@compute @workgroup_size(1)
fn main() {
    out[0] = crestX_naga_oil_mod_XEJWGSYRPO5QXMZLTFZ3WO43MEIX(3u);
}
