@group(0) @binding(0) var<storage, read_write> out: array<u32, 64>;

fn usedX_naga_oil_mod_XON2G64TFX() -> u32 {
    return 21u;
}

@compute @workgroup_size(1)
fn main() {
    out[0] = usedX_naga_oil_mod_XON2G64TFX();
}
