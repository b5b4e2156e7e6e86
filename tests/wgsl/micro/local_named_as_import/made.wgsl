var<private> levelX_naga_oil_mod_XNBSWC4AX: u32 = 3u;

@group(0) @binding(0) var<storage, read_write> out: array<u32, 64>;

fn raiseX_naga_oil_mod_XNBSWC4AX(by: u32) -> u32 {
    levelX_naga_oil_mod_XNBSWC4AX += by;
    return levelX_naga_oil_mod_XNBSWC4AX;
}

@compute @workgroup_size(1)
fn main() {
    raiseX_naga_oil_mod_XNBSWC4AX(5u);
    out[0] = levelX_naga_oil_mod_XNBSWC4AX;
    {
        var levelX_naga_oil_mod_XNBSWC4AX_1 = 100u;
        levelX_naga_oil_mod_XNBSWC4AX_1 += raiseX_naga_oil_mod_XNBSWC4AX(1u);
        out[1] = levelX_naga_oil_mod_XNBSWC4AX_1;
    }
    out[2] = levelX_naga_oil_mod_XNBSWC4AX;
}
