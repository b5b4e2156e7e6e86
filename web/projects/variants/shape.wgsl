#define_import_path shape

// How far a place is from the edge of the shape; less than 0 inside of it.
fn distance_to(at: vec2f) -> f32 {
#if SHAPE == 1
    return length(at) - 0.6;
#else if SHAPE == 2
    let out = abs(at) - vec2f(0.7, 0.4);
    return length(max(out, vec2f())) + min(max(out.x, out.y), 0.0);
#else
    return abs(at.y - 0.3 * sin(3.0 * at.x)) - 0.1;
#endif
}
