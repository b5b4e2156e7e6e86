// The kinds of textures that are rarely met.
@group(0) @binding(0) var t1: texture_1d<f32>;
@group(0) @binding(1) var tca: texture_cube_array<f32>;
@group(0) @binding(2) var dca: texture_depth_cube_array;
@group(0) @binding(3) var dc: texture_depth_cube;
@group(0) @binding(4) var te: texture_external;
@group(0) @binding(5) var s1: texture_storage_1d<rgba32float, write>;
@group(0) @binding(6) var s3: texture_storage_3d<r32sint, read>;
@group(0) @binding(7) var sa: texture_storage_2d_array<bgra8unorm, write>;
@group(0) @binding(8) var ms: texture_multisampled_2d<i32>;
@group(0) @binding(9) var s: sampler;
@group(0) @binding(10) var sc: sampler_comparison;
@group(0) @binding(11) var t3: texture_3d<u32>;
@fragment fn f(@location(0) p: vec3f) -> @location(0) vec4f {
    var r = textureSample(t1, s, p.x) + textureSample(tca, s, p, 1i) + vec4f(textureSample(dca, s, p, 2u)) + textureSampleBaseClampToEdge(te, s, p.xy) + textureLoad(te, vec2u(1));
    r += vec4f(textureLoad(ms, vec2i(1), 2)) + vec4f(textureLoad(s3, vec3i(1))) + textureLoad(t1, 1u, 0);
    r.x += textureSampleCompareLevel(dca, sc, p, 1, 0.5) + textureSampleCompare(dc, sc, p, 0.5) + textureSampleLevel(dc, s, p, 1) + f32(textureDimensions(t1)) + f32(textureDimensions(s1)) + f32(textureDimensions(te).x + textureDimensions(t3, 0).z + textureNumLayers(tca) + textureNumSamples(ms) + textureNumLevels(dca));
    r += textureGather(1, tca, s, p, 1) + textureGatherCompare(dca, sc, p, 1, 0.5) + textureSampleGrad(tca, s, p, 1, p, p) + textureSampleBias(tca, s, p, 0, 1.0) + vec4f(textureLoad(t3, vec3i(p), 0));
    return r;
}
@compute @workgroup_size(1) fn c() {
    textureStore(s1, 1, vec4f(1));
    textureStore(sa, vec2u(1), 0u, vec4f(1));
    let x = textureLoad(s3, vec3u());
    textureBarrier();
}
