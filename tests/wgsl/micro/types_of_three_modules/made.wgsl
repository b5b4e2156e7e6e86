struct PlaceX_naga_oil_mod_XONYGCY3FX {
    at: vec2u,
}

struct LampX_naga_oil_mod_XNRQW24AX {
    place: PlaceX_naga_oil_mod_XONYGCY3FX,
    power: u32,
}

struct SceneX_naga_oil_mod_XONRWK3TFX {
    lamps: array<LampX_naga_oil_mod_XNRQW24AX, 2>,
}

@group(0) @binding(0) var<storage, read_write> out: array<u32, 64>;

fn brightestX_naga_oil_mod_XONRWK3TFX(scene: SceneX_naga_oil_mod_XONRWK3TFX) -> LampX_naga_oil_mod_XNRQW24AX {
    var found: LampX_naga_oil_mod_XNRQW24AX = scene.lamps[0];
    for (var i = 1; i < 2; i += 1) {
        if scene.lamps[i].power > found.power {
            found = scene.lamps[i];
        }
    }
    return found;
}

@compute @workgroup_size(1)
fn main() {
    var scene: SceneX_naga_oil_mod_XONRWK3TFX;
    scene.lamps[0] = LampX_naga_oil_mod_XNRQW24AX(PlaceX_naga_oil_mod_XONYGCY3FX(vec2u(1u, 2u)), 5u);
    scene.lamps[1] = LampX_naga_oil_mod_XNRQW24AX(PlaceX_naga_oil_mod_XONYGCY3FX(vec2u(3u, 4u)), 8u);
    let found = brightestX_naga_oil_mod_XONRWK3TFX(scene);
    out[0] = found.power;
    out[1] = found.place.at.y;
}
