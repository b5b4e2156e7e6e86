#import noise::ripple
#ifdef WAVES
fn height(at: f32) -> f32 { return ripple(at * #SCALE.0); }
#endif
fn depth(at: f32) -> f32 { return ripple(at); }
