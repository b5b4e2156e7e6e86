#define_import_path waves::sea

const DEEP = vec3f(0.1, 0.35, 0.5);

fn wave(x: f32, time: f32) -> f32 {
    return 0.08 * sin(4.0 * x + time) + 0.04 * sin(9.0 * x - 1.7 * time) - 0.3;
}
