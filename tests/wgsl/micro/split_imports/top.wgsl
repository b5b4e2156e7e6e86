#import shapes::{
    ball::{volume, RADIUS},
    cube,
    cube::side as edge,
};

@group(0) @binding(0) var<storage, read_write> out: array<u32, 64>;

@compute @workgroup_size(1)
fn main() {
    out[0] = volume(RADIUS) + cube::faces() + edge();
}
