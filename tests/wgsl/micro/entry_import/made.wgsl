fn paintX_naga_oil_mod_XMZWGC5C7OBQWS3TUX() -> vec4f {
    return vec4f(1.0, 0.5, 0.25, 1.0);
}

@fragment
fn main() -> @location(0) vec4f {
    return 0.5 * paintX_naga_oil_mod_XMZWGC5C7OBQWS3TUX();
}
