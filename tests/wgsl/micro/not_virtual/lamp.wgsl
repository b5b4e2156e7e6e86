#define_import_path lamp

fn power() -> u32 {
    return 1u;
}
