#define_import_path sea

fn depth(at: u32) -> u32 {
    return at;
}
