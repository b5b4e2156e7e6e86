#define_import_path lamps

struct Lamps {
    lit: u32,
    powers: array<vec2f>,
}

@group(0) @binding(3) var<storage> lamps: Lamps;

fn count() -> u32 {
    return arrayLength(&lamps.powers);
}
