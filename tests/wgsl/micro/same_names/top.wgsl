#import far as far
#import near as near

struct Spot {
    y: u32,
}

fn lift(x: u32) -> u32 {
    return x + 100u;
}

@group(0) @binding(0) var<storage, read_write> out: array<u32, 64>;

@compute @workgroup_size(1)
fn main() {
    let a = far::Spot(1u);
    let b = near::Spot(2u, 3u);
    let c = Spot(4u);
    out[0] = far::lift(a.x);
    out[1] = near::lift(b.x + b.z);
    out[2] = lift(c.y);
}
