const COUNTX_naga_oil_mod_XONUXUZLTX = 5;

const HALFX_naga_oil_mod_XONUXUZLTX = 0.5;

@group(0) @binding(0) var<storage, read_write> out: array<u32, 64>;

@compute @workgroup_size(1)
fn main() {
    var parts: array<f32, 5>;
    parts[2] = HALFX_naga_oil_mod_XONUXUZLTX;
    out[0] = u32(parts[2] * 8.0) + COUNTX_naga_oil_mod_XONUXUZLTX;
}
