#define_import_path block

struct Block {
    @size(48) first: f32,
    @align(32) last: f32,
}

@group(1) @binding(4) var<uniform> block: Block;
