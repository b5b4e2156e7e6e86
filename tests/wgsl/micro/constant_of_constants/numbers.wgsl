#define_import_path numbers

const WIDTH: u32 = 5u;
const AREA: u32 = WIDTH * 3u;
const CORNER: vec2f = vec2f(f32(WIDTH), 0.5 * f32(AREA) + 0.75);
