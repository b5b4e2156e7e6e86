#define_import_path lighting

struct Light {
    direction: vec3<f32>,
    power: f32,
}

virtual fn attenuate(light: Light) -> f32 {
    return light.power;
}

fn lit(light: Light, normal: vec3<f32>) -> f32 {
    return max(dot(normal, light.direction), 0.0) * attenuate(light);
}
