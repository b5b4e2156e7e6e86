#define_import_path dots
#import paint
#import screen::screen

override fn paint::colour(at: vec2f) -> vec3f {
    let under = paint::colour(at);
    let cell = fract(3.0 * at + vec2f(0.1 * screen.time, 0.0)) - 0.5;
    return mix(vec3f(0.85, 0.3, 0.2), under, smoothstep(0.22, 0.25, length(cell)));
}
