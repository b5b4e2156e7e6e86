// Constants of each kind, abstract ones too, and overrides that sizes depend on.
@group(0) @binding(0) var<storage, read_write> out: array<u32, 64>;
const N = 3;
const V = vec3(1, 2, 3);
const A = array(V, V * 2);
const F = 1.0 / 3;
const G: f32 = F;
const B = N > 2 && F < 1;
const M = mat2x2(1, 2, 3, 4);
const S = select(1, 2, B);
const I = i32(2.9);
const U = 7 % 4;
const BIG = 1u << 31u;
struct P {
    x: f32, y: u32
}
const Q = P(1, 2);
const Z = P();
override ov: u32 = 4u;
override ow = ov * 2u;
var<workgroup> w: array<u32, ov>;
var<workgroup> w2: array<u32, ow + 1u>;
fn g() -> u32 {
    w[1] = 5u;
    w2[2] = 6u;
    return w[1] + w2[2];
}
@compute @workgroup_size(N - 2, S - 1) fn main() {
    const v = V * 2;
    let f = vec3f(v) * 1.5;
    let i: vec3i = v;
    var x: f32 = N;
    x += v.y;
    out[0] = bitcast<u32>(f.z) + u32(i.y) + bitcast<u32>(x);
    const c = 3;
    var arr: array<u32, c * 2>;
    arr[5] = 8u;
    out[1] = arr[c + 2] + u32(A[1].z) + u32(M[1][0]);
    out[2] = bitcast<u32>(F * 3f) + bitcast<u32>(G);
    out[3] = u32(S) + u32(I) + U + (BIG >> 3u);
    out[4] = u32(Q.x) + Q.y + Z.y;
    out[5] = g();
    let k = 5;
    let l = k / 2;
    out[6] = u32(l);
    let m = 5 / 2.0;
    out[7] = bitcast<u32>(m);
    const e = 1e10;
    out[8] = bitcast<u32>(f32(e * 1e-5));
    var y = 1;
    y += 2;
    out[9] = u32(y) << 2;
    let h = -5 / 2;
    out[10] = bitcast<u32>(h) ;
    const_assert c == 3;
    out[11] = u32(-7 % 3 + 5) + u32(~0 & 15);
    const d = array(1u, 2u, 3u);
    for (var j = 0; j < 3; j++) {
        out[12 + j] = d[j] + vec3(4u, 5u, 6u)[j];
    }
    const t = true;
    if t {
        out[15] = 1u;
    }
    out[16] = u32(vec2f(1).x + vec4(vec2(1, 2), vec2f(3)).w);
    var z = array<vec2<f32>, 2>(vec2(1), vec2(2, 3));
    out[17] = u32(z[1].y);
    let q: P = P(3, 4);
    out[18] = u32(q.x) + q.y;
}
