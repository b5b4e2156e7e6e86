#define_import_path lamp
#import space::Place

struct Lamp {
    place: Place,
    power: u32,
}
