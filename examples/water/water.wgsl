#define_import_path water
#import noise::{ripple, swell as wave}
#define LAYERS 3

// The height of the water above a point.
fn height(at: vec2<f32>) -> f32 {
#ifdef CALM
    return ripple(at);
#else if LAYERS >= 3
    return ripple(at) + #LAYERS.0 * wave(at * #{SCALE}.0);
#else
    return wave(at);
#endif
}
