#define_import_path pond

fn fish() -> u32 {
    return 1u;
}
