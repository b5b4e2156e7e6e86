#define_import_path paint

// The colour of the paper. Modules may override it, and call what they override.
virtual fn colour(at: vec2f) -> vec3f {
    return mix(vec3f(0.93, 0.9, 0.82), vec3f(0.8, 0.84, 0.86), 0.5 + 0.5 * at.y);
}
