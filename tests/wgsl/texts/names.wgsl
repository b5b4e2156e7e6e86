// Names in other scripts, names like words of the language, comments, and a declaration after its use.
@group(0) @binding(0) var<storage, read_write> out: array<u32, 64>;
/* A comment /* in a comment */ ends here. */
fn main_part(größe: u32) -> u32 { // ends with the line
    let señal = größe + 1u;
    let _hidden = señal * 2u;
    let x__y = _hidden + U;
    return x__y;
}

fn min(a: u32) -> u32 {
    return a + 40u;
}

struct vec {
    fn_: u32,
    loop_: u32,
}

@compute @workgroup_size(1)
fn main() {
    out[0] = main_part(3u);
    out[1] = min(2u) + max(1u, 2u);
    let abs = 5;
    out[2] = u32(abs);
    let made = vec(1u, 2u);
    out[3] = made.fn_ + made.loop_;
    let f32_ = f32(abs) * 2.0;
    out[4] = u32(f32_);
    let λ = 6u; let 数 = λ + 1u;
    out[5] = 数;
}

const U = V + 1u;
const V = 100u;
