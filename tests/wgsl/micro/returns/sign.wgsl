#define_import_path sign

fn sign_of(x: i32) -> i32 {
    if x < 0 {
        return -1;
    } else if x == 0 {
        return 0;
    } else {
        return 1;
    }
}

fn nothing(x: u32) {
    loop {
        if x > 1u {
            return;
        }
    }
}
