#define_import_path lamp

virtual fn power(at: u32) -> u32 {
    return at + 1u;
}

fn twice(at: u32) -> u32 {
    return 2u * power(at);
}
