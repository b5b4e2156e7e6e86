diagnostic(off, derivative_uniformity);

fn sharpX_naga_oil_mod_XMVSGOZLTX(at: f32) -> f32 {
    return fwidth(at);
}

@fragment
fn main(@location(0) at: f32) -> @location(0) vec4f {
    if at > 0.5 {
        return vec4f(sharpX_naga_oil_mod_XMVSGOZLTX(at));
    }
    return vec4f();
}
