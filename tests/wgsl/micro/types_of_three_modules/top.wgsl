#import scene::{Scene, brightest}
#import lamp::Lamp
#import space::Place

@group(0) @binding(0) var<storage, read_write> out: array<u32, 64>;

@compute @workgroup_size(1)
fn main() {
    var scene: Scene;
    scene.lamps[0] = Lamp(Place(vec2u(1u, 2u)), 5u);
    scene.lamps[1] = Lamp(Place(vec2u(3u, 4u)), 8u);
    let found = brightest(scene);
    out[0] = found.power;
    out[1] = found.place.at.y;
}
