#import screen::{corner_of, place_of as place, screen as s}
#import waves::{sea::{wave as swell, DEEP}, air::{wave as breeze, colours::{BRIGHT, DARK as NIGHT}}}

@vertex
fn corner(@builtin(vertex_index) index: u32) -> @builtin(position) vec4f {
    return corner_of(index);
}

@fragment
fn pixel(@builtin(position) at: vec4f) -> @location(0) vec4f {
    let here = place(at.xy);
    let sky = mix(BRIGHT, NIGHT, saturate(here.y + breeze(here, s.time)));
    return vec4f(select(sky, DEEP * (1.2 + here.y), here.y < swell(here.x, s.time)), 1.0);
}
