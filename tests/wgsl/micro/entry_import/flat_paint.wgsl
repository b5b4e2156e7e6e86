#define_import_path flat_paint

@fragment
fn paint() -> @location(0) vec4f {
    return vec4f(1.0, 0.5, 0.25, 1.0);
}
