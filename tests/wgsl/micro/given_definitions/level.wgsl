#define_import_path level

#if FLAT == true
const BASE = 0u;
#else
const BASE = 100u;
#endif

fn height() -> u32 {
    return BASE + #{SCALE}u;
}
