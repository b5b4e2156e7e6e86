#define_import_path scene::night
#import scene::light::{Light, lamp}
#import scene::math::{hash, ramp, square}

// The moon, in place of the sun.
override fn scene::light::lamp() -> Light {
    let sun = scene::light::lamp();
    return Light(normalize(sun.direction + vec3f(0.62, 0.09, 0.0)), vec3f(0.20, 0.26, 0.40) * sun.colour.b);
}

fn stars(direction: vec3f) -> f32 {
    let at = direction.xy / (1.0 + direction.z) * 230.0;
    let cell = vec2i(floor(at));
    let chance = hash(cell);
    let middle = vec2f(hash(cell + 71), hash(cell - 39)) * 0.6 + 0.2;
    return square(ramp(0.88, 1.0, chance)) * smoothstep(0.3, 0.0, distance(fract(at), middle));
}

override fn scene::light::sky(direction: vec3f) -> vec3f {
    let moon = lamp();
    let up = max(direction.y, 0.0);
    let near = saturate(dot(direction, moon.direction));
    let day = scene::light::sky(vec3f(direction.x, direction.y, -abs(direction.z)));
    var seen = day * vec3f(0.055, 0.075, 0.13);
    seen += vec3f(0.9, 0.95, 1.0) * stars(direction) * smoothstep(0.02, 0.25, up);
    seen += vec3f(0.10, 0.13, 0.2) * (0.5 * pow(near, 20.0) + pow(near, 300.0));
    return mix(seen, vec3f(0.95, 0.96, 0.9), smoothstep(0.9988, 0.9991, near));
}
