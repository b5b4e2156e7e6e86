#define_import_path screen

struct Screen {
    size: vec2f,
    time: f32,
    @align(16) pointer: vec2f,
}

@group(0) @binding(0) var<uniform> screen: Screen;

// A corner of a triangle that covers the picture.
fn corner_of(index: u32) -> vec4f {
    let corners = array(vec2f(-1.0, -1.0), vec2f(3.0, -1.0), vec2f(-1.0, 3.0));
    return vec4f(corners[index], 0.0, 1.0);
}

// The place of a pixel: the middle is 0, the upper edge has 1.
fn place_of(pixel: vec2f) -> vec2f {
    let at = (2.0 * pixel - screen.size) / screen.size.y;
    return vec2f(at.x, -at.y);
}
