// The declarations of `yettuvam.h`, with its names. `tests/c_library.sh` compares them with the header.

use std::os::raw::c_char;

pub const OK: u32 = 0;
pub const FAULTY: u32 = 1;
pub const NO_MEMORY: u32 = 2;
pub const NO_ROOM: u32 = 5;

pub const TEXT: u32 = 1;
pub const IMPORT: u32 = 2;
pub const ITEM: u32 = 3;
pub const PATH: u32 = 4;
pub const BOOL: u32 = 5;
pub const INT: u32 = 6;
pub const UINT: u32 = 7;
pub const RECORDED: u32 = 8;
pub const DIRECTIVES: u32 = 9;
pub const FAULT: u32 = 10;
pub const FAULT_LINE: u32 = 11;

#[repr(C)]
pub struct Source {
    pub path: *const c_char,
    pub path_len: usize,
    pub text: *const c_char,
    pub text_len: usize,
}

#[repr(C)]
pub struct Definition {
    pub name: *const c_char,
    pub name_len: usize,
    pub kind: u32,
    pub value: i64,
}

#[repr(C)]
pub struct Name {
    pub text: *const c_char,
    pub text_len: usize,
}

#[repr(C)]
pub struct Task {
    pub shader: Source,
    pub modules: *const Source,
    pub modules_len: usize,
    pub definitions: *const Definition,
    pub definitions_len: usize,
    pub imports: *const Name,
    pub imports_len: usize,
    pub override_any: bool,
}

#[repr(C)]
pub struct Field {
    pub kind: u32,
    pub at: usize,
    pub len: usize,
    pub place: usize,
    pub value: i64,
}

#[repr(C)]
pub struct Page {
    pub out: *mut c_char,
    pub out_len: usize,
    pub fields: *mut Field,
    pub fields_len: usize,
    pub bytes: usize,
    pub count: usize,
}

extern "C" {
    pub fn yettuvam_preprocess(
        source: *const Source,
        definitions: *const Definition,
        definitions_len: usize,
        page: *mut Page,
    ) -> u32;
    pub fn yettuvam_metadata(source: *const Source, allow_defines: bool, page: *mut Page) -> u32;
    pub fn yettuvam_build(task: *const Task, page: *mut Page) -> u32;
}
