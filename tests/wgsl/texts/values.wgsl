// Structs, arrays, vectors and matrices: built, read, and written in part.
@group(0) @binding(0) var<storage, read_write> out: array<u32, 64>;

struct Inner {
    at: vec3f,
    label: u32,
}

struct Outer {
    parts: array<Inner, 3>,
    turn: mat2x3f,
    flag: vec2<bool>,
}

alias Row = array<vec2i, 2>;

var<private> state: Outer;
var<private> grid: array<Row, 2> = array(Row(vec2i(1, 2), vec2i(3)), Row());

fn moved(outer: Outer, by: vec3f) -> Outer {
    var result = outer;
    result.parts[1].at += by;
    result.turn[1] = by.zyx;
    result.flag.y = !outer.flag.y;
    return result;
}

fn change(x: ptr<function, Inner>, y: ptr<private, Outer>) -> u32 {
    let old = (*x).label;
    (*x).at.z = 8.0;
    x.label = old + 1u;
    (*y).parts[old % 3u] = *x;
    let row = &y.turn;
    (*row)[0].y -= 3.5;
    return old;
}

@compute @workgroup_size(1)
fn main(@builtin(local_invocation_index) index: u32) {
    var local = Inner(vec3f(1, 2, 3), 4u + index);
    out[0] = change(&local, &state);
    out[1] = local.label + state.parts[1].label * 10u;
    state = moved(state, vec3(0.5));
    state.parts[2].at = vec3f(state.parts[1].at.xy, 7.0).zxy;
    out[2] = bitcast<u32>(state.parts[2].at.x + state.turn[1].z * 2.0 + state.turn[0].y);
    out[3] = u32(state.flag.y) + u32(any(state.flag)) * 2u;
    let i = index + 1u;
    grid[i][index].y = grid[0][i].x * -5;
    grid[i][index] += vec2i(grid[0][0].yx);
    out[4] = bitcast<u32>(grid[1][0].y * 100 + grid[1][0].x);
    var v = vec4u(1, 2, 3, 4);
    v[i] += v.w;
    v.x = v.wzyx[i];
    let w = v;
    v.y *= 2u;
    out[5] = v.x + v.y * 10u + w.y * 100u + v.bgra.r * 1000u;
    let m = mat3x2f(1, 2, 3, 4, 5, 6);
    out[6] = bitcast<u32>(determinant(mat2x2f(m[0], m[i])) + transpose(m)[1].z);
    out[7] = array(1u, 2u, 3u)[i] + vec3u(4u)[index] + Inner(vec3f(), 9u).label;
    let copy = grid;
    grid = array<Row, 2>();
    out[8] = bitcast<u32>(copy[1][0].y + grid[1][0].y);
    let p = &v;
    (*p).z = 70u;
    (*p)[0] = (*p).z + 1u;
    let q = &grid[0][i];
    *q += vec2i(i32(p.z), 1);
    out[9] = v.z + (*p).x + u32(grid[0][1].x);
    out[10] = u32(all(vec3(1, 2, 3) == vec3i(1, 2, 3))) + u32(vec3<bool>(true, false, true).z);
}
