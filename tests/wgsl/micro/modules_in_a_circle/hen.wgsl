#define_import_path hen
#import egg::egg

fn hen() -> u32 {
    return egg();
}
