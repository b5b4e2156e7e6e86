// Commas, parentheses and blank places where the grammar allows them.
requires unrestricted_pointer_parameters, pointer_composite_access, packed_4x8_integer_dot_product,;
@group(0) @binding(0) var<storage, read_write> out: array<u32, 64>;
struct S {
    a: u32, b: vec2<f32>,
};
struct T{
    a:array<S,2,>
}
;
const_assert(1 < 2);
const_assert true;
fn f(a: u32, b: u32,) -> u32 {
    return (a + b);
}
fn sw(x: i32) -> u32 {
    switch (x) {
        case 1, default, 2,: {
            return 1u;
        }
        case 3: {}
        case (4) {
            return 2u;
        }
    }
    return 3u;
}
fn ptrs(p: ptr<function, array<i32,2>>, q: ptr<storage, u32, read_write>, r: ptr<workgroup, u32>) -> u32 {
    (*p)[0]++;
    *q += 1u;
    *r = 3u;
    return u32((*p)[0]) + *q + *r;
}
var<workgroup> wg: u32;
var<private> pr = vec3(1.0, 2, 3);
@compute @workgroup_size(1, 1,) fn main() {
    var s: S;
    s.a++;
    (s).b.x = 2.0;
    ((s)).b[1] = 3f;
    (*&s).a += 1u;
    *&(s.a) += 2u;
    let p = &((s).b);
    (*p).x *= 2.0;
    p.y -= 1.0;
    *p = (*p).yx;
    let pp = &*p;
    out[0] = s.a + u32(pp.x * 10) + u32(s.b.y);
    var a = array<i32, (1 << 2)>();
    a[1] = 0X1F;
    var c: array<i32, (2 * 1)>;
    c[1]--;
    var d = array<i32,2>(1, 2);
    out[1] = ptrs(&d, &out[9], &wg);
    out[2] = f(1u, 2u,) + sw(4) + sw(7) * 10u + sw(3) * 100u;
    out[3] = bitcast<u32>(0X1P+3f + .5E-3f + 1e5 + 1.f + 0x.8p0);
    a[2] >>= 1u;
    a[2] ^= 5;
    out[4] = u32(a[1] + a[2] + c[1] + 5);
    for (let i = 1; ;) {
        out[5] = u32(i);
        break;
    }
    var k = 0u;
    for (k = 3u; k < 5u; k++) {}
    for (f(1u, 2u); k < 9u; ) {
        k += 2u;
    }
    for (const z = 2u; k < 20u; k += z) {}
    out[6] = k;
    out[7] = u32(vec3(1, 2, 3)[2] + array(vec2(1), vec2(2))[1].y);
    var m: mat3x3<f32>;
    m[1][2] += 3.0;
    (m)[1].y = 4;
    out[8] = u32((m * m)[1].z + pr.z);
    {}
    if true {} else {}
    out[10] = pack4xU8(vec4u(1, 2, 3, 4)) + pack4xI8Clamp(vec4i(-300, 1, 2, 3)) + u32(dot4I8Packed(0x01020304u, 0x01010101u)) + unpack4xU8(0x05060708u).x;
}
