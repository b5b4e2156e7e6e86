#define_import_path border
#import paint

override fn paint::colour(at: vec2f) -> vec3f {
    let edge = max(abs(at.x) - 1.5, abs(at.y) - 0.8);
    return mix(paint::colour(at), vec3f(0.08), smoothstep(0.0, 0.02, edge));
}
