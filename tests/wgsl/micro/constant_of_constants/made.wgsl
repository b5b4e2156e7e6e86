const WIDTHX_naga_oil_mod_XNZ2W2YTFOJZQX: u32 = 5u;

const AREAX_naga_oil_mod_XNZ2W2YTFOJZQX: u32 = WIDTHX_naga_oil_mod_XNZ2W2YTFOJZQX * 3u;

const CORNERX_naga_oil_mod_XNZ2W2YTFOJZQX: vec2f = vec2f(f32(WIDTHX_naga_oil_mod_XNZ2W2YTFOJZQX), 0.5 * f32(AREAX_naga_oil_mod_XNZ2W2YTFOJZQX) + 0.75);

const TWICE: u32 = AREAX_naga_oil_mod_XNZ2W2YTFOJZQX << 1u;

@group(0) @binding(0) var<storage, read_write> out: array<u32, 64>;

@compute @workgroup_size(1)
fn main() {
    var cells: array<u32, 30>;
    cells[29] = u32(CORNERX_naga_oil_mod_XNZ2W2YTFOJZQX.y);
    out[0] = cells[TWICE - 1u] + WIDTHX_naga_oil_mod_XNZ2W2YTFOJZQX;
}
