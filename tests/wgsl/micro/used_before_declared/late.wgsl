#define_import_path late

fn first(x: u32) -> u32 {
    return second(x) + END;
}

fn second(x: u32) -> u32 {
    return x * 3u;
}

const END: u32 = 4u;
