#define_import_path ring

struct Ring {
    round: u32,
}

fn round(ring: Ring) -> u32 {
    return ring.round * 2u;
}
