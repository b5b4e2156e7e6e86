struct LampsX_naga_oil_mod_XNRQW24DTX {
    lit: u32,
    powers: array<vec2f>,
}

@group(0) @binding(3) var<storage> lampsX_naga_oil_mod_XNRQW24DTX: LampsX_naga_oil_mod_XNRQW24DTX;

@group(0) @binding(0) var<storage, read_write> out: array<u32, 64>;

fn countX_naga_oil_mod_XNRQW24DTX() -> u32 {
    return arrayLength(&lampsX_naga_oil_mod_XNRQW24DTX.powers);
}

@compute @workgroup_size(1)
fn main() {
    out[0] = countX_naga_oil_mod_XNRQW24DTX() + lampsX_naga_oil_mod_XNRQW24DTX.lit;
}
