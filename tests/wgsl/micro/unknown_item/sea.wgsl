#define_import_path sea

fn width() -> u32 {
    return 1u;
}
