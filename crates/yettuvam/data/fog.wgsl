#define_import_path fog
#import lighting

const DENSITY = 0.25;

override fn lighting::attenuate(light: lighting::Light) -> f32 {
    return lighting::attenuate(light) * DENSITY;
}
