#import block::block

@fragment
fn main() -> @location(0) vec4f {
    return vec4f(block.first, block.last, 0.0, 1.0);
}
