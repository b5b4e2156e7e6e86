#define_import_path heap

var<private> level: u32 = 3u;

fn raise(by: u32) -> u32 {
    level += by;
    return level;
}
