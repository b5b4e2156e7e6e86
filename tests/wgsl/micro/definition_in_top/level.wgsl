#define_import_path level

#if LAYERS > 2
fn height() -> u32 {
    return #{LAYERS}0u;
}
#else
fn height() -> u32 {
    return 1u;
}
#endif
