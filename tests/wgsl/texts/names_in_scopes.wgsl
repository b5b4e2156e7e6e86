// Locals that hide words of the language, and names that a writer might choose itself.
@group(0) @binding(0) var<storage, read_write> out: array<u32, 64>;
fn a() -> u32 {
    let vec3f = 1u;
    var v = vec3<f32>(1.0, 2.0, 3.0);
    let vec2u = vec2<u32>(4u, vec3f);
    return u32(v.y) + vec2u.x * 10u;
}
fn local(x: bool) -> bool {
    out[20] += 1u;
    return x;
}
fn value() -> u32 {
    out[21] += 1u;
    return out[21];
}
var<private> local_1: u32 = 3u;
fn b(x: u32) -> u32 {
    let min = x;
    let max = min + 1u;
    {
        let min = max * 2u;
        let min_1 = 7u;
        return min + min_1;
    }
}
fn c(x: u32, x_1: u32) -> u32 {
    var r = x;
    {
        var x = x_1;
        {
            var x = x + 5u;
            r += x;
        }
        r += x;
    }
    return r;
}
fn vec4f(a: u32) -> u32 {
    return a + 1u;
}
struct mat2x2f {
    m: u32
}
fn vec3u_() -> vec3<u32> {
    return vec3<u32>(1u);
}
@compute @workgroup_size(1) fn main(@builtin(global_invocation_id) id: vec3<u32>) {
    out[0] = a();
    out[1] = b(4u);
    out[2] = c(1u, 2u);
    out[3] = vec4f(3u);
    out[4] = u32(vec4<f32>(5.0).x);
    out[5] = mat2x2f(3u).m + u32(mat2x2<f32>(1.0, 2.0, 3.0, 4.0)[1][0]);
    var l = id.x == 0u;
    if ((l && local(true)) || local(false)) {
        out[6] = local_1;
    }
    let i32 = 4u;
    out[7] = i32 + vec3u_().x;
    var i = 0u;
    out[30u + i] = value() + i;
    i = 1u;
    out[30u + i] = i + value() * 10u;
}
