struct RingX_naga_oil_mod_XOJUW4ZYX {
    round: u32,
}

@group(0) @binding(0) var<storage, read_write> out: array<u32, 64>;

fn roundX_naga_oil_mod_XOJUW4ZYX(ring: RingX_naga_oil_mod_XOJUW4ZYX) -> u32 {
    return ring.round * 2u;
}

@compute @workgroup_size(1)
fn main() {
    let ring = RingX_naga_oil_mod_XOJUW4ZYX(9u);
    out[0] = ring.round + roundX_naga_oil_mod_XOJUW4ZYX(ring);
}
