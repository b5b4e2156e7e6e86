#define_import_path view

@group(0) @binding(auto) var<uniform> eye: vec4f;
@group(0) @binding(auto) var<uniform> up: vec4f;
