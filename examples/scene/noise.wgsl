#define_import_path scene::noise
#import scene::math::{hash, TWIST}

// A smooth number from 0 to 1 for each point, and its slopes along both axes.
fn smooth_noise(at: vec2f) -> vec3f {
    let cell = vec2i(floor(at));
    let f = fract(at);
    let ease = f * f * f * (f * (f * 6.0 - 15.0) + 10.0);
    let slope = 30.0 * f * f * (f * (f - 2.0) + 1.0);
    let a = hash(cell);
    let b = hash(cell + vec2i(1, 0));
    let c = hash(cell + vec2i(0, 1));
    let d = hash(cell + vec2i(1, 1));
    let both = a - b - c + d;
    return vec3f(
        a + (b - a) * ease.x + (c - a) * ease.y + both * ease.x * ease.y,
        slope * (vec2f(b - a, c - a) + both * ease.yx),
    );
}

// Layers of noise, each half as high and twice as fine.
fn layers(at: vec2f, count: u32) -> f32 {
    var sum = 0.0;
    var height = 0.5;
    var place = at;
    for (var i = 0u; i < count; i++) {
        sum += height * smooth_noise(place).x;
        height *= 0.5;
        place = TWIST * place;
    }
    return sum;
}

// The same, but flatter where the layers above it are steep, as rain leaves mountains.
fn worn_layers(at: vec2f, count: u32) -> f32 {
    var sum = 0.0;
    var height = 0.5;
    var place = at;
    var steep = vec2f();
    for (var i = 0u; i < count; i++) {
        let found = smooth_noise(place);
        steep += found.yz;
        sum += height * found.x / (1.0 + dot(steep, steep));
        height *= 0.5;
        place = TWIST * place;
    }
    return sum;
}
