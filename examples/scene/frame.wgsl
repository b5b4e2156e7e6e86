#define_import_path scene::frame
#import scene::math::TAU

struct Frame {
    size: vec2f,
    time: f32,
}

struct Ray {
    start: vec3f,
    direction: vec3f,
}

@group(0) @binding(0) var<uniform> frame: Frame;

// The ray that a pixel sees.
fn ray_of(pixel: vec2f) -> Ray {
    let at = (2.0 * pixel - frame.size) / frame.size.y;
    let sway = 0.03 * sin(frame.time * TAU / 20.0);
    let forward = normalize(vec3f(0.12 + sway, 0.03, 1.0));
    let right = normalize(cross(vec3f(0.0, 1.0, 0.0), forward));
    let up = cross(forward, right);
    return Ray(vec3f(0.0, 0.46, -1.2), normalize(at.x * right - at.y * up + 2.2 * forward));
}
