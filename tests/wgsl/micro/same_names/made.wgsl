struct SpotX_naga_oil_mod_XMZQXEX {
    x: u32,
}

struct SpotX_naga_oil_mod_XNZSWC4QX {
    x: u32,
    z: u32,
}

struct Spot {
    y: u32,
}

@group(0) @binding(0) var<storage, read_write> out: array<u32, 64>;

fn liftX_naga_oil_mod_XMZQXEX(x: u32) -> u32 {
    return x + 1u;
}

fn liftX_naga_oil_mod_XNZSWC4QX(x: u32) -> u32 {
    return x + 10u;
}

fn lift(x: u32) -> u32 {
    return x + 100u;
}

@compute @workgroup_size(1)
fn main() {
    let a = SpotX_naga_oil_mod_XMZQXEX(1u);
    let b = SpotX_naga_oil_mod_XNZSWC4QX(2u, 3u);
    let c = Spot(4u);
    out[0] = liftX_naga_oil_mod_XMZQXEX(a.x);
    out[1] = liftX_naga_oil_mod_XNZSWC4QX(b.x + b.z);
    out[2] = lift(c.y);
}
