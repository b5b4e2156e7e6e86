override gainX_naga_oil_mod_XORXW4ZIX: f32 = 2.0;

fn gradedX_naga_oil_mod_XORXW4ZIX(colour: vec4f) -> vec4f {
    return gainX_naga_oil_mod_XORXW4ZIX * colour;
}

@fragment
fn main() -> @location(0) vec4f {
    return gradedX_naga_oil_mod_XORXW4ZIX(vec4f(0.25));
}
