alias ColourX_naga_oil_mod_XOBQWS3TUX = vec3f;

fn mixedX_naga_oil_mod_XOBQWS3TUX(colour: vec3f) -> vec3f {
    return 0.5 * colour;
}

@fragment
fn main() -> @location(0) vec4f {
    let red: vec3f = vec3f(1.0, 0.0, 0.0);
    return vec4f(mixedX_naga_oil_mod_XOBQWS3TUX(red), 1.0);
}
