#define_import_path shapes::box

const SIDE = 4u;

fn area(a: u32, b: u32) -> u32 {
    return a * b;
}
