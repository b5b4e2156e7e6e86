struct BlockX_naga_oil_mod_XMJWG6Y3LX {
    @size(48) first: f32,
    @align(32) last: f32,
}

@group(1) @binding(4) var<uniform> blockX_naga_oil_mod_XMJWG6Y3LX: BlockX_naga_oil_mod_XMJWG6Y3LX;

@fragment
fn main() -> @location(0) vec4f {
    return vec4f(blockX_naga_oil_mod_XMJWG6Y3LX.first, blockX_naga_oil_mod_XMJWG6Y3LX.last, 0.0, 1.0);
}
