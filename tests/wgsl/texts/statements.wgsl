// Statements that do nothing, and the forms of the others.
@group(0) @binding(0) var<storage, read_write> out: array<u32, 64>;
@group(0) @binding(5) var<uniform> un: vec4f;
@group(0) @binding(6) var tx: texture_2d<f32>;
@group(0) @binding(7) var<storage> st: array<u32>;
fn h(x: u32) -> u32 {
    if x > 1u {
        return 1u;
    } else {
        return 2u;
    }
}
fn dead(x: u32) -> u32 {
    return x;
}
fn nothing() {}
fn deep(x: u32) -> u32 {
    {
        {
            {
                {
                    var y = x;
                    y++;
                    return y;
                }
            }
        }
    }
}
@compute @workgroup_size(1) fn keep() {
    _ = un;
    _ = &st;
    _ = textureDimensions(tx);
    let unused = un.x;
    var unused_too = st[0];
    _ = h(1u);
}
@compute @workgroup_size(1) fn main() {
    _ = 5;
    _ = vec2(1, 2);
    ;
    nothing();
    {}
    {
        ;
    }
    out[0] = deep(dead(3u));
    var a: array<u32, 3>;
    a = array<u32, 3>(1, 2, 3);
    let pa = &a;
    out[1] = (*pa)[1] + pa[2];
    out[2] = (a)[0];
    (out)[3] = 9u;
    *(&out[4]) = 8u;
    (*pa)[0] <<= 2u;
    out[5] = a[0];
    let r = &out[6];
    *r |= 5u;
    *r &= 4u;
    var b = true;
    b = !b | b;
    b &= true;
    out[7] = u32(b);
    var m = mat2x2f();
    m *= 2.0;
    m[0] += vec2f(1);
    m += m;
    out[8] = u32(m[0].x);
    var v = vec2f(1, 2);
    v *= m;
    v = m * v;
    out[9] = u32(v.x);
    loop {
        break;
    }
    loop {
        if true {
            break;
        }
        continuing {
            out[10] = 1u;
        }
    }
    for (;;) {
        break;
    }
    while true {
        break;
    }
    switch 1 {
        default: {}
    }
    switch 2 {
        case 2, 3 {
            out[11] = 1u;
        }
        case default {}
    }
    discard_();
    return;
}
fn discard_() {
    out[12] = 3u;
    if (out[12] == 3u) {
        return;
    }
    out[12] = 4u;
}
