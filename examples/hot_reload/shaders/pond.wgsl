// A pond, drawn into one triangle that covers the screen.
#import pond::light::colour
#import pond::waves::height

struct Frame {
    size: vec2f,
    time: f32,
}

@group(0) @binding(0) var<uniform> frame: Frame;

@vertex
fn corner(@builtin(vertex_index) index: u32) -> @builtin(position) vec4f {
    let corners = array(vec2f(-1.0, -1.0), vec2f(3.0, -1.0), vec2f(-1.0, 3.0));
    return vec4f(corners[index], 0.0, 1.0);
}

@fragment
fn pixel(@builtin(position) at: vec4f) -> @location(0) vec4f {
    let place = 8.0 * at.xy / frame.size;
    return vec4f(colour(height(place, frame.time)), 1.0);
}
