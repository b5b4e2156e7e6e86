#define_import_path shapes::ball

const RADIUS = 2u;

fn volume(r: u32) -> u32 {
    return 4u * r * r * r;
}
