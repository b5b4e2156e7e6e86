#define_import_path stripes
#import paint

override fn paint::colour(at: vec2f) -> vec3f {
    let under = paint::colour(at);
    let on = smoothstep(0.45, 0.55, fract(4.0 * (at.x + at.y)));
    return mix(under, vec3f(0.16, 0.3, 0.45), 0.7 * on);
}
