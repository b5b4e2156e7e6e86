#import paint::{Colour, mixed}

@fragment
fn main() -> @location(0) vec4f {
    let red: Colour = Colour(1.0, 0.0, 0.0);
    return vec4f(mixed(red), 1.0);
}
