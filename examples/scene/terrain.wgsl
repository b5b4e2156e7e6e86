#define_import_path scene::terrain
#import scene::frame::Ray
#import scene::noise::worn_layers

const SEA = 0.18;
const FAR = 14.0;
const HIGHEST = 1.5;

// How high the ground is at a place, from so many layers.
fn ground(at: vec2f, count: u32) -> f32 {
    let shore = smoothstep(0.4, 4.2, at.y + 0.7 * abs(at.x - 0.6));
    return worn_layers(at * 0.62 + vec2f(#{PLACE}.0, 4.3), count) * (0.34 + 1.55 * shore) - 0.07;
}

fn normal_at(at: vec2f, way: f32) -> vec3f {
    let step = 0.0007 * way + 0.0006;
    let x = vec2f(step, 0.0);
    return normalize(vec3f(
        ground(at - x, #{LAYERS}u) - ground(at + x, #{LAYERS}u),
        2.0 * step,
        ground(at - x.yx, #{LAYERS}u) - ground(at + x.yx, #{LAYERS}u),
    ));
}

// How far a ray goes before it meets the ground, or FAR.
fn way_to_ground(ray: Ray) -> f32 {
    var way = 0.02;
    for (var i = 0; i < 110 && way < FAR; i++) {
        let at = ray.start + way * ray.direction;
        if at.y > HIGHEST && ray.direction.y > 0.0 {
            return FAR;
        }
        let above = at.y - ground(at.xz, 5u);
        if above < 0.0008 * way {
            return way;
        }
        way += 0.42 * above + 0.0008 * way;
    }
    return min(way, FAR);
}

// How much of the light that comes from a direction reaches a point.
fn reached(point: vec3f, direction: vec3f) -> f32 {
    var left = 1.0;
    var way = 0.015;
    for (var i = 0; i < 20; i++) {
        let at = point + way * direction;
        let above = at.y - ground(at.xz, 4u);
        left = min(left, 12.0 * above / way);
        if left < 0.0 || at.y > HIGHEST {
            break;
        }
        way += clamp(0.6 * above, 0.02, 0.3);
    }
    return smoothstep(0.0, 1.0, left);
}
