#define_import_path edges

fn sharp(at: f32) -> f32 {
    return fwidth(at);
}
