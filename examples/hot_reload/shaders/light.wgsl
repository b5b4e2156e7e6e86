#define_import_path pond::light

#ifdef NIGHT
const WATER = vec3f(0.02, 0.04, 0.10);
#else
const WATER = vec3f(0.10, 0.35, 0.45);
#endif

// The colour of water with this height.
fn colour(height: f32) -> vec3f {
#ifdef FOAM
    let foam = smoothstep(1.2, 1.6, height);
    return mix(WATER * (1.0 + 0.4 * height), vec3f(0.95), foam);
#else
    return WATER * (1.0 + 0.4 * height);
#endif
}
