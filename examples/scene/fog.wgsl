#define_import_path scene::fog
#import scene::frame::{Ray, frame}
#import scene::light
#import scene::noise::layers

const THIN = 7.0;

// Fog that lies in the valleys: the lower, the thicker.
override fn scene::light::through_air(colour: vec3f, ray: Ray, way: f32) -> vec3f {
    let clear = scene::light::through_air(colour, ray, way);
    let fall = THIN * ray.direction.y;
    let straight = select((1.0 - exp(-way * fall)) / fall, way, abs(fall) < 0.001);
    let end = ray.start + way * ray.direction;
    let drift = 0.45 + 1.1 * layers(end.xz * 1.3 + vec2f(0.07 * frame.time, 0.0), 4u);
    let amount = 1.0 - exp(-f32(#{FOG}) / 10.0 * drift * exp(-THIN * (ray.start.y - 0.28)) * straight);
    let sun = scene::light::lamp();
    let glow = pow(saturate(dot(ray.direction, sun.direction)), 8.0);
    let bright = scene::light::sky(vec3f(0.0, 0.25, -0.97)) * 0.82 + 0.2 * glow * sun.colour + 0.035 * sun.colour;
    return mix(clear, bright, min(amount, 0.96));
}
