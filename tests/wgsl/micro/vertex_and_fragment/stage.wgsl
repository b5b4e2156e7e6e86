#define_import_path stage

struct Corner {
    @builtin(position) @invariant at: vec4f,
    @location(0) @interpolate(flat) label: u32,
    @location(1) @interpolate(perspective, centroid) uv: vec2f,
}
