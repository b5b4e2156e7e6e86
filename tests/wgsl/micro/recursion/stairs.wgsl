#define_import_path stairs

fn up(x: u32) -> u32 {
    return down(x) + 1u;
}

fn down(x: u32) -> u32 {
    if x > 9u {
        return x;
    }
    return up(x);
}
