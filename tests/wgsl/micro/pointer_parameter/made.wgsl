struct WalkX_naga_oil_mod_XON2GK4DTX {
    at: u32,
    taken: array<u32, 2>,
}

@group(0) @binding(0) var<storage, read_write> out: array<u32, 64>;

fn advanceX_naga_oil_mod_XON2GK4DTX(walk: ptr<function, WalkX_naga_oil_mod_XON2GK4DTX>) {
    (*walk).at += (*walk).taken[1];
    (*walk).taken[1] += 1;
}

@compute @workgroup_size(1)
fn main() {
    var walk: WalkX_naga_oil_mod_XON2GK4DTX = WalkX_naga_oil_mod_XON2GK4DTX(4u, array(1u, 2u));
    advanceX_naga_oil_mod_XON2GK4DTX(&walk);
    let second = &walk.taken[1];
    *second *= 5u;
    out[0] = walk.at;
    out[1] = walk.taken[1];
}
