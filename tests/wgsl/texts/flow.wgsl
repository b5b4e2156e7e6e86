// Each statement that leads the flow.
@group(0) @binding(0) var<storage, read_write> out: array<u32, 64>;
var<private> made: u32;

fn add(x: u32) -> u32 {
    made += x;
    return made;
}

fn leap(x: i32) -> u32 {
    switch x {
        case -1 {
            return 1u;
        }
        case 0, 3: {
            if x == 3 {
                break;
            }
            return 2u;
        }
        default {
        }
        case 7: {
            return add(5u);
        }
    }
    return 3u;
}

@compute @workgroup_size(1)
fn main() {
    var n = 0u;
    while n < 5u {
        n++;
        if n == 2u {
            continue;
        }
        if (n == 4u) {
            break;
        }
        out[n] = n * 10u;
    }
    for (; n < 100u;) {
        n += add(n);
    }
    out[5] = n;
    for (var i = 0; i < 9; i += 2) {
        var kept = u32(i);
        if i == 4 {
            continue;
        }
        kept = kept * 2u + add(1u);
        out[6 + i / 2] = kept;
    }
    loop {
        let step = add(2u);
        if step % 3u == 0u {
            continue;
        } else if step % 5u == 0u {
            out[11] = step;
        }
        continuing {
            let far = step;
            n -= 1u;
            break if n == 90u || far > 200u;
        }
    }
    out[12] = n;
    loop {
        switch n {
            case 90u: {
                n = 1u;
                continue;
            }
            case 1u, default: {
                n = 2u;
            }
        }
        if n == 2u { break; }
    }
    out[13] = n + leap(-1) * 10u + leap(0) * 100u + leap(3) * 1000u + leap(7) * 10000u + leap(9) * 1000000u;
    {
        let n = 5u;
        {
            let n = n + 1u;
            out[14] = n;
        }
        out[15] = n;
    }
    var twice = 0u;
    for (var i = 0u; i < 3u; i++) {
        for (var i = 0u; i < 2u; i++) {
            twice += i + 1u;
        }
        var fresh: u32;
        fresh += i;
        twice += fresh * 100u;
    }
    out[16] = twice;
    if false {} else if n == 2u {
        out[17] = 4u;
    } else {
        out[17] = 5u;
    }
    ;
}
