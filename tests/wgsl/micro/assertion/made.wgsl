const LAMPX_naga_oil_mod_XNNUW4ZDTX: u32 = 7u;

@group(0) @binding(0) var<storage, read_write> out: array<u32, 64>;

fn kindX_naga_oil_mod_XNNUW4ZDTX() -> u32 {
    return LAMPX_naga_oil_mod_XNNUW4ZDTX;
}

@compute @workgroup_size(1)
fn main() {
    switch kindX_naga_oil_mod_XNNUW4ZDTX() {
        case 7u: {
            out[0] = 1u;
        }
        case 0u, 9u, default: {
            out[0] = 2u;
        }
    }
}
