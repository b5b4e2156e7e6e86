#import stage::Corner

@vertex
fn place(@builtin(vertex_index) index: u32) -> Corner {
    var corner: Corner;
    corner.at = vec4f(f32(index & 1u), f32(index >> 1u), 0.0, 1.0);
    corner.label = index;
    return corner;
}

@fragment
fn paint(corner: Corner, @builtin(front_facing) front: bool) -> @location(0) vec4f {
    if !front {
        discard;
    }
    return vec4f(corner.uv, f32(corner.label), 1.0);
}
