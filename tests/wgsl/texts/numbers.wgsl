// Literals of each kind, and what is computed before a shader runs.
@group(0) @binding(0) var<storage, read_write> out: array<u32, 64>;

const abstract_int = 0x7fffffff + 1;
const abstract_float = 0x1.8p3 + .5 + 5. + 1e-2;
const least = -2147483648;
const small: i32 = -0x7fffffffi - 1i;
const big = 4294967295u;
const tiny = 1.5e-38f;
const hex_float: f32 = 0x.8p+2f;
const tenth: f32 = 0.1;
const long_one = 3.14159265358979323846264338327950288;

@compute @workgroup_size(1)
fn main() {
    out[0] = u32(abstract_int >> 1);
    out[1] = bitcast<u32>(f32(abstract_float));
    out[2] = bitcast<u32>(i32(least));
    out[3] = bitcast<u32>(small);
    out[4] = big;
    out[5] = bitcast<u32>(tiny);
    out[6] = bitcast<u32>(hex_float);
    out[7] = bitcast<u32>(tenth * 3.0);
    out[8] = bitcast<u32>(f32(long_one));
    out[9] = u32(7 / 2) + 10u * u32(-7 / 2 + 10) + 100u * u32(-7 % 3 + 10);
    let concrete = 5;
    let ratio = 1.0 / 3;
    out[10] = u32(concrete / 2);
    out[11] = bitcast<u32>(ratio);
    const local = 10;
    out[12] = u32(local) + bitcast<u32>(f32(local) / 4);
    out[13] = u32(true) + u32(!false) * 2u;
}
