#import numbers::{WIDTH, AREA, CORNER}

const TWICE: u32 = AREA << 1u;

@group(0) @binding(0) var<storage, read_write> out: array<u32, 64>;

@compute @workgroup_size(1)
fn main() {
    var cells: array<u32, TWICE>;
    cells[29] = u32(CORNER.y);
    out[0] = cells[TWICE - 1u] + WIDTH;
}
