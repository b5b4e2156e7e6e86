var<private> countedX_naga_oil_mod_XMNXXK3TUMVZAX: u32 = 10u;

@group(0) @binding(0) var<storage, read_write> out: array<u32, 64>;

fn countX_naga_oil_mod_XMNXXK3TUMVZAX() -> u32 {
    countedX_naga_oil_mod_XMNXXK3TUMVZAX += 1;
    return countedX_naga_oil_mod_XMNXXK3TUMVZAX;
}

@compute @workgroup_size(1)
fn main() {
    countX_naga_oil_mod_XMNXXK3TUMVZAX();
    _ = countX_naga_oil_mod_XMNXXK3TUMVZAX();
    out[0] = countX_naga_oil_mod_XMNXXK3TUMVZAX() + countedX_naga_oil_mod_XMNXXK3TUMVZAX;
    countedX_naga_oil_mod_XMNXXK3TUMVZAX = 40u;
    out[1] = countX_naga_oil_mod_XMNXXK3TUMVZAX();
}
