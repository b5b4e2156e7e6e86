#define_import_path level
#define STEEP

fn height() -> u32 {
    return 1u;
}
