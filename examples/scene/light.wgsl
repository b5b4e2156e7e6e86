#define_import_path scene::light
#import scene::frame::Ray
#import scene::math::square
#import scene::noise::layers

struct Light {
    // Where it comes from.
    direction: vec3f,
    colour: vec3f,
}

// The light that casts shadows. An override may choose another.
virtual fn lamp() -> Light {
    return Light(normalize(vec3f(-0.44, 0.21, 0.86)), vec3f(3.6, 2.5, 1.5));
}

// What is seen where nothing stands in the way.
virtual fn sky(direction: vec3f) -> vec3f {
    let sun = lamp();
    let up = max(direction.y, 0.0);
    let near = saturate(dot(direction, sun.direction));
    var seen = mix(vec3f(0.72, 0.68, 0.64), vec3f(0.13, 0.30, 0.62), pow(up, 0.42));
    seen = mix(seen, vec3f(1.2, 0.74, 0.36), 0.75 * pow(near, 5.0) * (1.0 - up));
    let cloud = layers(direction.xz / (up + 0.18) * 1.6 + vec2f(3.0, 1.0), 6u);
    seen = mix(seen, vec3f(1.0, 0.93, 0.86) * (0.8 + 0.5 * pow(near, 8.0)), smoothstep(0.46, 0.78, cloud) * smoothstep(0.02, 0.3, up));
    return seen + vec3f(1.4, 1.1, 0.7) * (smoothstep(0.9993, 0.9997, near) * 3.0 + 0.25 * pow(near, 350.0));
}

// What is left of a colour after a way through air. Clear air takes nothing but a little.
virtual fn through_air(colour: vec3f, ray: Ray, way: f32) -> vec3f {
    return mix(colour, sky(vec3f(ray.direction.x, 0.06, ray.direction.z)), 1.0 - exp(-0.012 * square(way)));
}

// How a matt surface looks: the light that reaches it, that of the sky, and what the ground throws back.
fn lit(colour: vec3f, normal: vec3f, sunlit: f32) -> vec3f {
    let sun = lamp();
    let direct = sunlit * max(dot(normal, sun.direction), 0.0) * sun.colour;
    let above = (0.5 + 0.5 * normal.y) * 0.45 * sky(vec3f(0.1, 0.98, -0.17));
    let back = max(dot(normal, normalize(sun.direction * vec3f(-1.0, 0.0, -1.0))), 0.0) * 0.07 * sun.colour;
    return colour * (direct + above + back);
}
