#define_import_path kinds

const LAMP: u32 = 7u;
const_assert LAMP < 9u;

fn kind() -> u32 {
    return LAMP;
}
