#define_import_path kinds

const LAMP: u32 = 12u;
const_assert LAMP < 9u;
