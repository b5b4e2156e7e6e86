// Comparisons that could be taken for lists of template arguments.
@group(0) @binding(0) var<storage, read_write> out: array<u32, 64>;
fn two(p: bool, q: bool) -> u32 {
    return u32(p) + 2u * u32(q);
}
@compute @workgroup_size(1) fn main(@builtin(global_invocation_id) id: vec3u) {
    let a = id.x + 1u;
    let b = id.x + 3u;
    let c = id.y + 2u;
    let d = id.y;
    var t = array(1u, 2u, 3u, 4u, 5u);
    out[0] = two((a < b), (c > d));
    out[1] = two((a < b), (c > (d)));
    out[2] = u32(all(vec2<bool>((a < b), (c > d))));
    out[3] = u32(a < (b >> 1u));
    out[4] = u32((a < b) == (c > d));
    out[5] = t[u32(a < b)] + t[u32((a < b) && (c > d))];
    out[6] = select((a << 1u), b >> 1u, (a < b));
    out[7] = u32((a < t[c]) == (t[d] > a));
    out[8] = u32(array((a < b), (b > a), (c >= d))[1 + a - a]);
    out[9] = two((a < b), ((c >> 1u) >= d));
    out[10] = two(a < b, (c >= d));
    let bits = vec2i(1) << vec2u(a);
    out[11] = u32(bits.x);
    out[12] = u32((a <= b) != (c > (d >> 1u)));
}
