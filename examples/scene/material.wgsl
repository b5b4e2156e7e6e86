#define_import_path scene::material
#import scene::frame::{frame, Ray}
#import scene::light::{lamp, lit, sky}
#import scene::math::square
#import scene::noise::{layers, smooth_noise}
#import scene::terrain as land

// The colour of the ground: rock where it is steep, else sand, grass or snow by its height.
fn ground_colour(point: vec3f, normal: vec3f) -> vec3f {
    let fine = layers(point.xz * 18.0, 4u);
    let rock = mix(vec3f(0.13, 0.115, 0.105), vec3f(0.26, 0.235, 0.21), fine);
    let grass = mix(vec3f(0.07, 0.095, 0.03), vec3f(0.15, 0.15, 0.05), layers(point.xz * 5.0, 3u));
    var colour = mix(rock, grass, smoothstep(0.62, 0.82, normal.y + 0.1 * fine));
    colour = mix(vec3f(0.36, 0.30, 0.21), colour, smoothstep(0.012, 0.045, point.y - land::SEA + 0.02 * fine));
    let snow = smoothstep(0.50, 0.66, point.y + 0.14 * fine) * smoothstep(0.48, 0.72, normal.y);
    return mix(colour, vec3f(0.72, 0.76, 0.82), snow);
}

fn ground_look(ray: Ray, way: f32) -> vec3f {
    let point = ray.start + way * ray.direction;
    let normal = land::normal_at(point.xz, way);
    return lit(ground_colour(point, normal), normal, land::reached(point + 0.004 * normal, lamp().direction));
}

fn wave_normal(at: vec2f, way: f32) -> vec3f {
    let slow = vec2f(0.5, 0.2) * frame.time;
    let wide = smooth_noise(at * vec2f(9.0, 16.0) + slow).yz;
    let narrow = smooth_noise(at * vec2f(31.0, 47.0) - slow).yz;
    let rough = 0.035 / (1.0 + 0.5 * way);
    return normalize(vec3f(rough * wide.x + 0.6 * rough * narrow.x, 1.0, rough * wide.y + 0.6 * rough * narrow.y));
}

// Water mirrors what is above it, the more the flatter one looks at it.
fn water_look(ray: Ray, way: f32) -> vec3f {
    let point = ray.start + way * ray.direction;
    let normal = wave_normal(point.xz, way);
    var bounced = reflect(ray.direction, normal);
    bounced.y = abs(bounced.y);
    let mirrored = Ray(point, bounced);
    let far = land::way_to_ground(mirrored);
    var above = sky(bounced);
    if far < land::FAR {
        above = ground_look(mirrored, far);
    }
    let mirror = 0.03 + 0.97 * pow(1.0 - saturate(-dot(ray.direction, normal)), 5.0);
    let sun = lamp();
    let glitter = pow(saturate(dot(bounced, sun.direction)), 240.0) * land::reached(point, sun.direction);
    let depth = saturate(6.0 * (land::SEA - land::ground(point.xz, 5u)));
    let below = mix(vec3f(0.10, 0.16, 0.13), vec3f(0.012, 0.05, 0.07), depth) * (0.15 * sun.colour + 0.35 * sky(vec3f(0.0, 1.0, 0.0)));
    return mix(below, above, mirror) + glitter * sun.colour * 0.6;
}
