#import pond::fish

@group(1) @binding(2) var<uniform> birds: vec4f;

@fragment
fn main() -> @location(0) vec4f {
    return fish + birds;
}
