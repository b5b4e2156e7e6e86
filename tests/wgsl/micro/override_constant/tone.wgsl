#define_import_path tone

override gain: f32 = 2.0;

fn graded(colour: vec4f) -> vec4f {
    return gain * colour;
}
