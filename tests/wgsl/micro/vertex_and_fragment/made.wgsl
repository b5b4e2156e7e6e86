struct CornerX_naga_oil_mod_XON2GCZ3FX {
    @builtin(position) @invariant at: vec4f,
    @location(0) @interpolate(flat) label: u32,
    @location(1) @interpolate(perspective, centroid) uv: vec2f,
}

@vertex
fn place(@builtin(vertex_index) index: u32) -> CornerX_naga_oil_mod_XON2GCZ3FX {
    var corner: CornerX_naga_oil_mod_XON2GCZ3FX;
    corner.at = vec4f(f32(index & 1u), f32(index >> 1u), 0.0, 1.0);
    corner.label = index;
    return corner;
}

@fragment
fn paint(corner: CornerX_naga_oil_mod_XON2GCZ3FX, @builtin(front_facing) front: bool) -> @location(0) vec4f {
    if !front {
        discard;
    }
    return vec4f(corner.uv, f32(corner.label), 1.0);
}
