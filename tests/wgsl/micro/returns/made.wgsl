@group(0) @binding(0) var<storage, read_write> out: array<u32, 64>;

fn sign_ofX_naga_oil_mod_XONUWO3QX(x: i32) -> i32 {
    if x < 0 {
        return -1;
    } else if x == 0 {
        return 0;
    } else {
        return 1;
    }
}

fn nothingX_naga_oil_mod_XONUWO3QX(x: u32) {
    loop {
        if x > 1u {
            return;
        }
    }
}

@compute @workgroup_size(1)
fn main() {
    nothingX_naga_oil_mod_XONUWO3QX(2u);
    out[0] = u32(sign_ofX_naga_oil_mod_XONUWO3QX(-4) + 1) * 100u + u32(sign_ofX_naga_oil_mod_XONUWO3QX(0) + 1) * 10u + u32(sign_ofX_naga_oil_mod_XONUWO3QX(7) + 1);
    return;
}
