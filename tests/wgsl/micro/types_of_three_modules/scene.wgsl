#define_import_path scene
#import lamp::Lamp

struct Scene {
    lamps: array<Lamp, 2>,
}

fn brightest(scene: Scene) -> Lamp {
    var found = scene.lamps[0];
    for (var i = 1; i < 2; i++) {
        if scene.lamps[i].power > found.power {
            found = scene.lamps[i];
        }
    }
    return found;
}
