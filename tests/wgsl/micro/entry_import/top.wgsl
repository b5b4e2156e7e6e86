#import flat_paint::paint

@fragment
fn main() -> @location(0) vec4f {
    return 0.5 * paint();
}
