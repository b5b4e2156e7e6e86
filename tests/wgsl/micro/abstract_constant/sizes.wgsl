#define_import_path sizes

const COUNT = 5;
const HALF = 0.5;
