#define_import_path lobe2

const START1: u32 = 8u;

struct Lobe2 {
    x1: u32,
}

fn of3(lobe1: Lobe2) -> u32 {
    return lobe1.x1 + 3u;
}
