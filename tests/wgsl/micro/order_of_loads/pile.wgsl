#define_import_path pile

var<private> top: u32 = 9u;

fn drop() -> u32 {
    top -= 2u;
    return top;
}
