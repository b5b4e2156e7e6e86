#import table::PRIMES

@group(0) @binding(0) var<storage, read_write> out: array<u32, 64>;

@compute @workgroup_size(1)
fn main() {
    var primes = PRIMES;
    for (var i = 0u; i < 4u; i++) {
        out[i] = primes[3u - i];
    }
    out[4] = PRIMES[1];
}
