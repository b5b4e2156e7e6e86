//! Safe Rust over the static library `yettuvam_c`. The declarations are those of `yettuvam.h`.

use std::ffi::{c_char, c_uint};

#[repr(C)]
struct Source {
    path: *const c_char,
    path_len: usize,
    text: *const c_char,
    text_len: usize,
}

#[repr(C)]
struct RawDefinition {
    name: *const c_char,
    name_len: usize,
    kind: u32,
    value: i64,
}

#[repr(C)]
struct Name {
    text: *const c_char,
    text_len: usize,
}

#[repr(C)]
struct Task {
    shader: Source,
    modules: *const Source,
    modules_len: usize,
    definitions: *const RawDefinition,
    definitions_len: usize,
    imports: *const Name,
    imports_len: usize,
    override_any: bool,
}

#[repr(C)]
#[derive(Clone, Copy)]
struct Field {
    kind: u32,
    at: usize,
    len: usize,
    place: usize,
    value: i64,
}

#[repr(C)]
struct Page {
    out: *mut c_char,
    out_len: usize,
    fields: *mut Field,
    fields_len: usize,
    bytes: usize,
    count: usize,
}

unsafe extern "C" {
    fn yettuvam_preprocess(
        source: *const Source,
        definitions: *const RawDefinition,
        definitions_len: usize,
        page: *mut Page,
    ) -> c_uint;
    fn yettuvam_metadata(source: *const Source, allow_defines: bool, page: *mut Page) -> c_uint;
    fn yettuvam_build(task: *const Task, page: *mut Page) -> c_uint;
}

/// What a name is defined as.
#[derive(Clone, Copy, Debug, PartialEq, Eq)]
pub enum Value {
    Bool(bool),
    Int(i32),
    UInt(u32),
}

/// A module that is imported: where it is first used, and the items that are used of it.
#[derive(Debug, PartialEq, Eq)]
pub struct Import {
    pub module: String,
    pub place: usize,
    pub items: Vec<String>,
}

/// What a text becomes, or what it tells before any build.
#[derive(Debug, Default, PartialEq, Eq)]
pub struct Told {
    pub text: String,
    pub path: Option<String>,
    pub imports: Vec<Import>,
    pub defines: Vec<(String, Value)>,
    pub recorded: Vec<String>,
    pub directives: String,
}

/// Where a fault of a text is.
#[derive(Debug, PartialEq, Eq)]
pub enum Place {
    Byte(usize),
    /// A line, by its index from 0.
    Line(usize),
    Nowhere,
}

#[derive(Debug, PartialEq, Eq)]
pub enum Refusal {
    /// The text has a fault: its report and its place.
    Fault(String, Place),
    NoMemory,
}

/// The path of a file, and its text.
pub type File<'a> = (&'a str, &'a str);

/// A shader to build.
#[derive(Default)]
pub struct Build<'a> {
    pub shader: File<'a>,
    /// The files of modules, in any order.
    pub modules: &'a [File<'a>],
    /// The last with a name counts.
    pub definitions: &'a [(String, Value)],
    /// The modules that the shader imports besides those of its text.
    pub imports: &'a [&'a str],
    /// Whether any imported function can be overridden, and not only virtual ones.
    pub override_any: bool,
}

/// The shader in WGSL. The report of an error names its file, its line and its column.
pub fn build(of: &Build) -> Result<String, Refusal> {
    let modules: Vec<Source> = of.modules.iter().map(|file| source(*file)).collect();
    let definitions = raw_definitions(of.definitions);
    let imports: Vec<Name> = of
        .imports
        .iter()
        .map(|name| Name {
            text: name.as_ptr().cast(),
            text_len: name.len(),
        })
        .collect();
    let task = Task {
        shader: source(of.shader),
        modules: modules.as_ptr(),
        modules_len: modules.len(),
        definitions: definitions.as_ptr(),
        definitions_len: definitions.len(),
        imports: imports.as_ptr(),
        imports_len: imports.len(),
        override_any: of.override_any,
    };
    // SAFETY: the declarations fit the header, and all that the task names and the page live through the call.
    Ok(told(|page| unsafe { yettuvam_build(&task, page) })?.text)
}

fn source((path, text): File) -> Source {
    Source {
        path: path.as_ptr().cast(),
        path_len: path.len(),
        text: text.as_ptr().cast(),
        text_len: text.len(),
    }
}

fn raw_definitions(definitions: &[(String, Value)]) -> Vec<RawDefinition> {
    definitions
        .iter()
        .map(|(name, value)| raw(name, *value))
        .collect()
}

/// What the text becomes under the definitions, of which the last of a name counts, and what it imports.
pub fn preprocess(path: &str, text: &str, defs: &[(String, Value)]) -> Result<Told, Refusal> {
    let defs = raw_definitions(defs);
    // SAFETY: the declarations fit the header, and the texts, the definitions and the page live through the call.
    told(|page| unsafe {
        yettuvam_preprocess(&source((path, text)), defs.as_ptr(), defs.len(), page)
    })
}

/// What the text tells before any build, with or without definitions in it.
pub fn metadata(path: &str, text: &str, allow_defines: bool) -> Result<Told, Refusal> {
    // SAFETY: as above.
    told(|page| unsafe { yettuvam_metadata(&source((path, text)), allow_defines, page) })
}

fn raw(name: &str, value: Value) -> RawDefinition {
    let (kind, value) = match value {
        Value::Bool(truth) => (5, i64::from(truth)),
        Value::Int(number) => (6, i64::from(number)),
        Value::UInt(number) => (7, i64::from(number)),
    };
    let (name, name_len) = (name.as_ptr().cast(), name.len());
    RawDefinition {
        name,
        name_len,
        kind,
        value,
    }
}

// Calls with a page of some room, and once more where it has to be larger.
fn told(call: impl Fn(*mut Page) -> c_uint) -> Result<Told, Refusal> {
    let (mut bytes, mut count) = (1024, 16);
    loop {
        let mut out = vec![0u8; bytes];
        let mut fields = vec![
            Field {
                kind: 0,
                at: 0,
                len: 0,
                place: 0,
                value: 0
            };
            count
        ];
        let mut page = Page {
            out: out.as_mut_ptr().cast(),
            out_len: out.len(),
            fields: fields.as_mut_ptr(),
            fields_len: fields.len(),
            bytes: 0,
            count: 0,
        };
        let status = call(&mut page);
        (bytes, count) = (page.bytes, page.count);
        match status {
            0 => return Ok(read(&out, &fields[..count])),
            1 => return Err(fault(&out, fields[0])),
            2 => return Err(Refusal::NoMemory),
            5 => {}
            // A `str` is UTF-8, and a `Value` is one that its kind has.
            _ => unreachable!("status {status}"),
        }
    }
}

fn text_of(out: &[u8], field: Field) -> String {
    String::from_utf8_lossy(&out[field.at..field.at + field.len]).into_owned()
}

fn fault(out: &[u8], field: Field) -> Refusal {
    let place = match field.kind {
        10 => Place::Byte(field.place),
        11 => Place::Line(field.place),
        _ => Place::Nowhere,
    };
    Refusal::Fault(text_of(out, field), place)
}

fn read(out: &[u8], fields: &[Field]) -> Told {
    let mut told = Told::default();
    for field in fields {
        let text = text_of(out, *field);
        match field.kind {
            1 => told.text = text,
            2 => told.imports.push(Import {
                module: text,
                place: field.place,
                items: Vec::new(),
            }),
            3 => told.imports.last_mut().unwrap().items.push(text),
            4 => told.path = Some(text),
            5 => told.defines.push((text, Value::Bool(field.value != 0))),
            6 => told.defines.push((text, Value::Int(field.value as i32))),
            7 => told.defines.push((text, Value::UInt(field.value as u32))),
            8 => told.recorded.push(text),
            _ => told.directives = text,
        }
    }
    told
}
