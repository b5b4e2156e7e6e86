// Textures of each kind, and the calls that read and write them.
requires readonly_and_readwrite_storage_textures;
@group(0) @binding(0) var flat: texture_2d<f32>;
@group(0) @binding(1) var layered: texture_2d_array<f32>;
@group(0) @binding(2) var around: texture_cube<f32>;
@group(0) @binding(3) var deep: texture_depth_2d;
@group(0) @binding(4) var deep_layers: texture_depth_2d_array;
@group(0) @binding(5) var samples: texture_multisampled_2d<f32>;
@group(0) @binding(6) var whole: texture_2d<u32>;
@group(0) @binding(7) var solid: texture_3d<f32>;
@group(1) @binding(0) var linear: sampler;
@group(1) @binding(1) var nearer: sampler_comparison;
@group(1) @binding(2) var painted: texture_storage_2d<rgba8unorm, write>;
@group(1) @binding(3) var counted: texture_storage_2d<r32uint, read_write>;

fn shadow(place: vec3f, layer: i32) -> f32 {
    return textureSampleCompareLevel(deep_layers, nearer, place.xy, layer, place.z) + textureSampleCompare(deep, nearer, place.xy, place.z, vec2i(1));
}

@fragment
fn lit(@location(0) at: vec2f, @location(1) @interpolate(flat) layer: u32) -> @location(0) vec4f {
    var sum = textureSample(flat, linear, at, vec2i(-1, 1));
    sum += textureSampleBias(layered, linear, at, layer, 0.5);
    sum += textureSampleGrad(around, linear, vec3f(at, 1.0), vec3f(dpdx(at), 0.0), vec3f(dpdy(at), 0.0));
    sum += textureSampleLevel(solid, linear, vec3f(at, 0.5), 1.0);
    sum += textureGather(2, flat, linear, at) + textureGather(deep, linear, at);
    sum += textureGatherCompare(deep, nearer, at, 0.5, vec2i(0, 1));
    sum += vec4f(textureLoad(whole, vec2u(at), 0)) + textureLoad(layered, vec2i(at), layer, 1);
    sum += textureLoad(samples, vec2i(at), textureNumSamples(samples) - 1u);
    let size = textureDimensions(layered, 1) * textureNumLayers(layered) + textureNumLevels(flat);
    return sum * f32(size.x) + shadow(vec3f(at, 0.25), i32(layer)) + textureSampleBaseClampToEdge(flat, linear, at);
}

@compute @workgroup_size(8, 8)
fn paint(@builtin(global_invocation_id) id: vec3u) {
    let size = textureDimensions(painted);
    if any(id.xy >= size) {
        return;
    }
    let before = textureLoad(counted, id.xy).r;
    textureStore(counted, id.xy, vec4u(before + 1u));
    textureStore(painted, vec2i(id.xy), vec4f(vec2f(id.xy) / vec2f(size), 0.0, 1.0));
}
