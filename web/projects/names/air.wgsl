#define_import_path waves::air

fn wave(at: vec2f, time: f32) -> f32 {
    return 0.1 * sin(2.0 * at.x + 5.0 * at.y + 0.4 * time);
}
