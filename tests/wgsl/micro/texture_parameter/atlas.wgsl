#define_import_path atlas

fn tile(tiles: texture_2d_array<f32>, by: sampler, at: vec2f) -> vec4f {
    return textureSampleLevel(tiles, by, at, 2, 0.0, vec2i(0, 1));
}
