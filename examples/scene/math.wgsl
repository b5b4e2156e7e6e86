#define_import_path scene::math

const PI = 3.14159265;
const TAU = 2.0 * PI;

// Turns a direction that gets twice as long into one of another angle, so that layers of noise don't lie on each other.
const TWIST = mat2x2f(1.6, 1.2, -1.2, 1.6);

// A number from 0 to 1 for each point of a grid, the same on every device.
fn hash(at: vec2i) -> f32 {
    let mixed = bitcast<vec2u>(at) * vec2u(0x9E3779B1u, 0x85EBCA77u);
    var bits = mixed.x ^ (mixed.y << 13u) ^ (mixed.y >> 19u);
    bits = (bits ^ (bits >> 15u)) * 0x2C1B3C6Du;
    bits = (bits ^ (bits >> 12u)) * 0x297A2D39u;
    return f32((bits ^ (bits >> 15u)) >> 8u) / 16777215.0;
}

fn square(x: f32) -> f32 {
    return x * x;
}

// 0 up to a low number, 1 from a high one on, and even between them.
fn ramp(low: f32, high: f32, x: f32) -> f32 {
    return saturate((x - low) / (high - low));
}
