// Functions that the language brings.
@group(0) @binding(0) var<storage, read_write> out: array<u32, 64>;

fn bits(x: f32) -> u32 {
    return bitcast<u32>(x);
}

@compute @workgroup_size(1)
fn main(@builtin(global_invocation_id) id: vec3u) {
    let f = f32(id.x) + 2.5;
    let v = vec3f(f, -1.5, 0.25);
    let n = i32(id.x) - 77;
    out[0] = bits(floor(f) + ceil(v.z) + round(v.y) + trunc(-v.x) + fract(f));
    out[1] = bits(clamp(f, 0.0, 1.0) + saturate(v.y) + mix(1.0, f, 0.5) + step(0.0, v.y) + sign(v.y));
    out[2] = bits(abs(v).y + max(v.x, v.z) + min(v, v.zxy).x);
    out[3] = bits(dot(v, v.zyx) + cross(v, v.yzx).y + length(vec2f(3, 4)) + distance(v, v));
    out[4] = countOneBits(u32(n)) + firstLeadingBit(17u + id.x) * 100u + countTrailingZeros(8u) * 10000u;
    out[5] = extractBits(0xabcdu + id.x, 4u, 8u) + insertBits(0u, 5u + id.x, 8u, 4u) + reverseBits(1u + id.x);
    out[6] = bitcast<u32>(abs(n) + clamp(n, -5, 5) + sign(n) + firstTrailingBit(n));
    out[7] = pack4x8unorm(vec4f(0.0, 1.0, 0.5, 0.2)) + pack2x16snorm(v.zz);
    out[8] = bits(unpack4x8unorm(0x00ff0080u + id.x).x + unpack2x16float(0x3c00u + id.x).x);
    let parts = modf(f);
    out[9] = bits(parts.fract * 10.0 + parts.whole);
    let split = frexp(f);
    out[10] = bits(split.fract) + u32(split.exp);
    out[11] = bits(ldexp(f, 3) + fma(f, f, 1.0) + quantizeToF16(f) + inverseSqrt(4.0 + f - f));
    out[12] = bits(select(vec2f(f), vec2f(9.0), vec2(true, false)).y + faceForward(v, v, -v).x + reflect(v.xy, vec2f(0, 1)).y);
    out[13] = dot4U8Packed(0x01020304u + id.x, 0x01010101u) + u32(all(v > vec3f(-9.0))) + u32(any(vec2(id.x == 1u, false)));
    out[14] = (bits(degrees(radians(f)) - f) & 0u) + bits(exp2(3.0 + f - f) + log2(8.0 + f - f) + pow(2.0 + f - f, 3.0) + sqrt(16.0 + f - f));
    out[15] = bits(smoothstep(0.0, 5.0, f)) + bits(normalize(vec2f(f - f, 2.0)).y);
}
