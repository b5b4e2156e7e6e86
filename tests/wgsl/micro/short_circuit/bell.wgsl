#define_import_path bell

var<private> rung: u32;

fn ring() -> bool {
    rung++;
    return true;
}
