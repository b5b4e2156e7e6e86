#define_import_path shapes::cube

fn faces() -> u32 {
    return 6u;
}

fn side() -> u32 {
    return 100u;
}
