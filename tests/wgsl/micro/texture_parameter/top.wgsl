#import atlas::tile

@group(0) @binding(0) var tiles: texture_2d_array<f32>;
@group(0) @binding(1) var linear: sampler;

@fragment
fn main(@location(0) at: vec2f) -> @location(0) vec4f {
    return tile(tiles, linear, at);
}
