#define_import_path "lib/waves.wgsl"

fn crest(x: u32) -> u32 {
    return x + 5u;
}
