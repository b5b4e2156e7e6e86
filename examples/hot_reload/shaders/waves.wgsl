#define_import_path pond::waves

// The height of the water.
fn height(place: vec2f, time: f32) -> f32 {
    var sum = 0.0;
    var size = 1.0;
    for (var i = 0; i < #{WAVES}; i++) {
        sum += size * sin(dot(place, vec2f(1.0, 0.7)) / size + time);
        size *= 0.6;
    }
    return sum;
}
