#define_import_path near

struct Spot {
    x: u32,
    z: u32,
}

fn lift(x: u32) -> u32 {
    return x + 10u;
}
