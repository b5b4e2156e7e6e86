#import screen::{corner_of, place_of, screen}
#import shape::distance_to

@vertex
fn corner(@builtin(vertex_index) index: u32) -> @builtin(position) vec4f {
    return corner_of(index);
}

@fragment
fn pixel(@builtin(position) at: vec4f) -> @location(0) vec4f {
    let away = distance_to(place_of(at.xy));
    let rings = 0.5 + 0.5 * cos(f32(#{RINGS}) * 6.0 * away - screen.time);
    var colour = mix(vec3f(0.05, 0.09, 0.16), vec3f(0.95, 0.55, 0.25), rings * exp(-1.5 * abs(away)));
#ifdef GLOW
    colour += vec3f(0.25, 0.5, 1.0) * exp(-18.0 * abs(away));
#endif
    return vec4f(colour, 1.0);
}
