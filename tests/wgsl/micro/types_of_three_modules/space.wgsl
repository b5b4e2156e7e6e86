#define_import_path space

struct Place {
    at: vec2u,
}
