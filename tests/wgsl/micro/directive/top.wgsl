diagnostic(off, derivative_uniformity);
#import edges::sharp

@fragment
fn main(@location(0) at: f32) -> @location(0) vec4f {
    if at > 0.5 {
        return vec4f(sharp(at));
    }
    return vec4f();
}
