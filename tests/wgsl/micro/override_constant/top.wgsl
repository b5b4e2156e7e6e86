#import tone::graded

@fragment
fn main() -> @location(0) vec4f {
    return graded(vec4f(0.25));
}
