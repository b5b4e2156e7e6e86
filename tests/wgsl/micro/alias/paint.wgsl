#define_import_path paint

alias Colour = vec3<f32>;

fn mixed(colour: Colour) -> Colour {
    return 0.5 * colour;
}
