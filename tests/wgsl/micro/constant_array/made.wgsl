const PRIMESX_naga_oil_mod_XORQWE3DFX: array<u32, 4> = array<u32, 4>(2u, 3u, 5u, 7u);

@group(0) @binding(0) var<storage, read_write> out: array<u32, 64>;

@compute @workgroup_size(1)
fn main() {
    var primes: array<u32, 4> = PRIMESX_naga_oil_mod_XORQWE3DFX;
    for (var i = 0u; i < 4u; i += 1) {
        out[i] = primes[3u - i];
    }
    out[4] = PRIMESX_naga_oil_mod_XORQWE3DFX[1];
}
