#define_import_path paint

fn shade() -> u32 {
    return 1u;
}
