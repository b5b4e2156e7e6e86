const RADIUSX_naga_oil_mod_XONUGC4DFOM5DUYTBNRWAX = 2u;

@group(0) @binding(0) var<storage, read_write> out: array<u32, 64>;

fn volumeX_naga_oil_mod_XONUGC4DFOM5DUYTBNRWAX(r: u32) -> u32 {
    return 4u * r * r * r;
}

fn facesX_naga_oil_mod_XONUGC4DFOM5DUY3VMJSQX() -> u32 {
    return 6u;
}

fn sideX_naga_oil_mod_XONUGC4DFOM5DUY3VMJSQX() -> u32 {
    return 100u;
}

@compute @workgroup_size(1)
fn main() {
    out[0] = volumeX_naga_oil_mod_XONUGC4DFOM5DUYTBNRWAX(RADIUSX_naga_oil_mod_XONUGC4DFOM5DUYTBNRWAX) + facesX_naga_oil_mod_XONUGC4DFOM5DUY3VMJSQX() + sideX_naga_oil_mod_XONUGC4DFOM5DUY3VMJSQX();
}
