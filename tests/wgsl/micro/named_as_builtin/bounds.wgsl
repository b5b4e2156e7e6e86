#define_import_path bounds

fn at_least(x: u32) -> u32 {
    return max(x, 3u);
}
