#define_import_path steps

struct Walk {
    at: u32,
    taken: array<u32, 2>,
}

fn advance(walk: ptr<function, Walk>) {
    (*walk).at += (*walk).taken[1];
    walk.taken[1]++;
}
