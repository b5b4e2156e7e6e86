var<private> rungX_naga_oil_mod_XMJSWY3AX: u32;

@group(0) @binding(0) var<storage, read_write> out: array<u32, 64>;

fn ringX_naga_oil_mod_XMJSWY3AX() -> bool {
    rungX_naga_oil_mod_XMJSWY3AX += 1;
    return true;
}

@compute @workgroup_size(1)
fn main() {
    var local = false;
    if local {
        local = ringX_naga_oil_mod_XMJSWY3AX();
    }
    let a = local;
    out[0] = rungX_naga_oil_mod_XMJSWY3AX;
    var local_1 = ringX_naga_oil_mod_XMJSWY3AX();
    if local_1 {} else {
        local_1 = ringX_naga_oil_mod_XMJSWY3AX();
    }
    let b = local_1;
    out[1] = rungX_naga_oil_mod_XMJSWY3AX;
    var local_2 = true;
    if local_2 {
        var local_3 = rungX_naga_oil_mod_XMJSWY3AX > 7u;
        if local_3 {} else {
            local_3 = ringX_naga_oil_mod_XMJSWY3AX();
        }
        local_2 = local_3;
    }
    var local_4 = local_2;
    if local_4 {
        local_4 = ringX_naga_oil_mod_XMJSWY3AX();
    }
    let c = local_4;
    out[2] = rungX_naga_oil_mod_XMJSWY3AX;
    out[3] = u32(a) + 2u * u32(b) + 4u * u32(c);
}
