@group(0) @binding(0) var<uniform> eyeX_naga_oil_mod_XOZUWK5YX: vec4f;

@group(0) @binding(1) var<uniform> upX_naga_oil_mod_XOZUWK5YX: vec4f;

@group(0) @binding(2) var<uniform> tint: vec4f;

@fragment
fn main() -> @location(0) vec4f {
    return eyeX_naga_oil_mod_XOZUWK5YX + upX_naga_oil_mod_XOZUWK5YX + tint;
}
