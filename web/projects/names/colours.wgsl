#define_import_path waves::air::colours

const BRIGHT = vec3f(0.98, 0.78, 0.55);
const DARK = vec3f(0.22, 0.32, 0.55);
