// A landscape, drawn into one triangle that covers the screen.
#import scene::frame::{frame, ray_of, Ray}
#import scene::light::{sky, through_air}
#import scene::material::{ground_look, water_look}
#import scene::terrain::{FAR, SEA, way_to_ground}

@vertex
fn corner(@builtin(vertex_index) index: u32) -> @builtin(position) vec4f {
    let corners = array(vec2f(-1.0, -1.0), vec2f(3.0, -1.0), vec2f(-1.0, 3.0));
    return vec4f(corners[index], 0.0, 1.0);
}

fn seen(ray: Ray) -> vec3f {
    let to_ground = way_to_ground(ray);
    let to_sea = select(FAR, (SEA - ray.start.y) / ray.direction.y, ray.direction.y < 0.0);
    let way = min(to_ground, to_sea);
    if way >= FAR {
        return through_air(sky(ray.direction), ray, FAR * 0.2);
    }
    if to_sea < to_ground {
        return through_air(water_look(ray, way), ray, way);
    }
    return through_air(ground_look(ray, way), ray, way);
}

// What bright film shows: highlights don't clip, and the corners are darker.
fn developed(colour: vec3f, pixel: vec2f) -> vec3f {
    let soft = colour * (2.51 * colour + 0.03) / (colour * (2.43 * colour + 0.59) + 0.14);
    let at = pixel / frame.size - 0.5;
    return pow(saturate(soft), vec3f(1.0 / 2.2)) * (1.0 - 0.35 * dot(at, at));
}

@fragment
fn pixel(@builtin(position) at: vec4f) -> @location(0) vec4f {
    return vec4f(developed(seen(ray_of(at.xy)), at.xy), 1.0);
}
