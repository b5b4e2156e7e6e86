#define_import_path pond

@group(1) @binding(2) var<uniform> fish: vec4f;
