#define_import_path haze
#import lamp

override fn lamp::power(at: u32) -> u32 {
    return lamp::power(at) + 3u;
}
