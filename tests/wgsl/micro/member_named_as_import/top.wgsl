#import paint::shade

@group(0) @binding(0) var<storage, read_write> out: array<u32, 64>;

struct Point {
    shade: u32,
}

@compute @workgroup_size(1)
fn main() {
    var point = Point(4u);
    out[0] = point.shade + shade();
}
