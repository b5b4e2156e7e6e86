#define_import_path far

struct Spot {
    x: u32,
}

fn lift(x: u32) -> u32 {
    return x + 1u;
}
