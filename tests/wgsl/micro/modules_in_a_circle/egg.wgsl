#define_import_path egg
#import hen::hen

fn egg() -> u32 {
    return hen();
}
