#define_import_path counter

var<private> counted: u32 = 10u;

fn count() -> u32 {
    counted++;
    return counted;
}
