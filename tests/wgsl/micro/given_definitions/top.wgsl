#import level::height

@group(0) @binding(0) var<storage, read_write> out: array<u32, 64>;

@compute @workgroup_size(1)
fn main() {
#ifdef DEEP
    out[0] = height() + 5u;
#else
    out[0] = height();
#endif
    out[1] = #SCALE;
}
