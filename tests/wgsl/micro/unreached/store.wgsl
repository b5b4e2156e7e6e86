#define_import_path store

struct Spare {
    weight: f32,
}

const NEVER: u32 = 1u;

@group(2) @binding(0) var<uniform> spare: Spare;

fn unused() -> f32 {
    return spare.weight;
}

fn used() -> u32 {
    return 21u;
}
