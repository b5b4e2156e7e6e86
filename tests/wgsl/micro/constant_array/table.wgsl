#define_import_path table

const PRIMES = array<u32, 4>(2u, 3u, 5u, 7u);
