@group(0) @binding(0) var tiles: texture_2d_array<f32>;

@group(0) @binding(1) var linear: sampler;

fn tileX_naga_oil_mod_XMF2GYYLTX(tiles_1: texture_2d_array<f32>, by: sampler, at: vec2f) -> vec4f {
    return textureSampleLevel(tiles_1, by, at, 2, 0.0, vec2i(0, 1));
}

@fragment
fn main(@location(0) at: vec2f) -> @location(0) vec4f {
    return tileX_naga_oil_mod_XMF2GYYLTX(tiles, linear, at);
}
