#define_import_path pond

fn fish(x: u32) -> u32 {
    let y = x + ;
    return y;
}
