#define_import_path group

const ACROSS = 4;
