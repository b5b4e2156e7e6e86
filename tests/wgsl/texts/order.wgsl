// Calls with effects in each place where they can stand, beside reads of what they change.
@group(0) @binding(0) var<storage, read_write> out: array<u32, 64>;
var<private> n: u32 = 1u;
var<private> t: array<u32, 8>;
fn f(x: u32) -> u32 {
    n = n * 3u + x;
    t[x] += n;
    return x;
}
fn p(x: u32) -> bool {
    n = n * 5u + x;
    return (n & 1u) == 1u;
}
@compute @workgroup_size(1) fn main() {
    t[f(1u)] += f(2u);
    out[0] = n;
    t[f(3u)]++;
    out[1] = t[3];
    t[f(2u)] = t[f(1u)] + n;
    out[2] = t[2];
    var k = 0u;
    while (p(k) && p(k + 1u)) || k < 3u {
        k++;
        if k > 6u {
            break;
        }
    }
    out[3] = n;
    out[4] = k;
    for (var i = f(1u); p(i) || i < 3u; i += f(1u)) {
        if i > 5u {
            break;
        }
        out[5] += n;
        if p(i) {
            continue;
        }
        out[6] += 1u;
    }
    loop {
        let far = f(2u);
        k += far;
        if p(k) {
            continue;
        }
        out[7] += 1u;
        continuing {
            k += 1u;
            let m = far + k;
            break if (p(m) && k > 9u) || k > 40u;
        }
    }
    out[8] = k;
    out[9] = n;
    if p(1u) {
        out[10] = n;
    } else if p(2u) && p(3u) {
        out[11] = n;
    } else if p(4u) || p(5u) {
        out[12] = n;
    } else {
        out[13] = n;
    }
    switch f(3u) + n {
        case 3u: {
            out[14] = 1u;
        }
        default: {
            out[14] = n;
        }
    }
    let before = n + t[1];
    t[1] = 100u;
    n = 7u;
    out[15] = before + n;
    let q = &t[f(4u)];
    f(4u);
    *q += f(4u);
    out[16] = t[4];
    out[17] = select(f(1u), f(2u), p(3u)) + n;
    out[18] = t[2] + f(2u) + t[2];
    let arr = array(n, f(1u), n, f(2u), n);
    out[19] = arr[0] + arr[2] * 3u + arr[4] * 7u;
    n = f(5u) + n;
    n += f(5u);
    out[20] = n;
    var s = vec3u(n, f(1u), n);
    s[f(1u)] -= s.x;
    out[21] = s.x ^ s.y ^ s.z;
    out[22] = u32((p(1u) & p(2u)) | p(3u));
    out[23] = n;
    out[24] = t[0] + t[1] + t[2] * 2u + t[3] * 3u + t[4] * 5u + t[5] * 7u;
}
