// Operators in each other: where parentheses are needed, and where they aren't.
@group(0) @binding(0) var<storage, read_write> out: array<u32, 64>;

fn bits(x: f32) -> u32 {
    return bitcast<u32>(x);
}

@compute @workgroup_size(1)
fn main(@builtin(global_invocation_id) id: vec3u) {
    let a = id.x + 13u;
    let b = id.y + 5u;
    let c = id.z + 2u;
    let i = i32(b);
    let f = f32(a) + 0.25;
    out[0] = a - (b - c);
    out[1] = a - b - c;
    out[2] = a / (b / c) + a % (b % c + 1u) * c;
    out[3] = ((a + b) * c) << (c + 1u);
    out[4] = (a & b) | ((c ^ (a | b)) & 6u);
    out[5] = ~a & ~(b | c);
    out[6] = u32(-(-i)) + u32(- -i) + u32(-(i - 9));
    out[7] = select(1u, 2u, !(a < b || b > c) != (a >= b && !(c <= a)));
    out[8] = u32((a & b) == c) + 2u * u32((a == b) == (b == c)) + 4u * u32(a + b > (c << 1u));
    out[9] = bits(f / (f * 2.0) - (f - (f + 1.0)));
    out[10] = u32(!!(a > b));
    let v = vec3f(f, 2.0, -1.0);
    let m = mat3x3f(v, v.zxy, vec3f(1.0, 0.0, 3.0));
    out[11] = bits(dot(m * v, v * m));
    out[12] = bits((m * m * 2.0)[1].y + (m - m * 2.0)[0][2] - -v.x);
    out[13] = u32(all((v > vec3f()) == vec3(true, true, false))) + 2u * u32(any((v < vec3f(3.0)) & !vec3(false)));
    out[14] = (a ^ b ^ c) + (a & (b & c)) + (a | b | c);
    out[15] = bits(v.x * (v.y / v.x) % 1.5);
    out[16] = u32(i >> c) + bitcast<u32>((-i) >> c) + (u32(i) << (c & 3u));
}
