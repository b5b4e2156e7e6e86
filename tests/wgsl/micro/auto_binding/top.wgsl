#import view::{eye, up}

@group(0) @binding(auto) var<uniform> tint: vec4f;

@fragment
fn main() -> @location(0) vec4f {
    return eye + up + tint;
}
