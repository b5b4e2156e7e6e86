#define_import_path tally

var<workgroup> sum: atomic<u32>;

fn add(x: u32) {
    atomicAdd(&sum, x);
}

fn total() -> u32 {
    return atomicLoad(&sum);
}
