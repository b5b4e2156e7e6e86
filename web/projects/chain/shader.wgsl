#import screen::{corner_of, place_of}
#import paint

@vertex
fn corner(@builtin(vertex_index) index: u32) -> @builtin(position) vec4f {
    return corner_of(index);
}

@fragment
fn pixel(@builtin(position) at: vec4f) -> @location(0) vec4f {
    return vec4f(paint::colour(place_of(at.xy)), 1.0);
}
