diagnostic(off, derivative_uniformity);
#import lighting::{Light, lit}

@group(0) @binding(0) var<uniform> sun: Light;

@fragment
fn shade(@location(0) normal: vec3<f32>) -> @location(0) vec4<f32> {
    let power = lit(sun, normal) * #GAIN.0;
    return vec4<f32>(vec3<f32>(power), 1.0);
}
