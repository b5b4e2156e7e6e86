// Texts, definitions, and the calls for one text.

use crate::page::{call, Page};
use crate::{raw, Error};
use std::fmt;

/// A text, and the path by which reports name it.
#[derive(Clone, Copy, Debug, PartialEq, Eq)]
pub struct Source<'a> {
    /// Any name: nothing is read from a file.
    pub path: &'a str,
    /// The text.
    pub text: &'a str,
}

impl<'a> Source<'a> {
    /// A text with its path.
    pub fn new(path: &'a str, text: &'a str) -> Source<'a> {
        Source { path, text }
    }

    pub(crate) fn raw(self) -> raw::Source {
        raw::Source {
            path: self.path.as_ptr().cast(),
            path_len: self.path.len(),
            text: self.text.as_ptr().cast(),
            text_len: self.text.len(),
        }
    }
}

/// The value of a definition.
#[derive(Clone, Copy, Debug, PartialEq, Eq, Hash)]
pub enum Value {
    /// `true` or `false`.
    Bool(bool),
    /// A number.
    Int(i32),
    /// A number that isn't negative.
    UInt(u32),
}

impl From<bool> for Value {
    fn from(value: bool) -> Value {
        Value::Bool(value)
    }
}

impl From<i32> for Value {
    fn from(value: i32) -> Value {
        Value::Int(value)
    }
}

impl From<u32> for Value {
    fn from(value: u32) -> Value {
        Value::UInt(value)
    }
}

/// What `#NAME` becomes in a text.
impl fmt::Display for Value {
    fn fmt(&self, to: &mut fmt::Formatter<'_>) -> fmt::Result {
        match self {
            Value::Bool(value) => value.fmt(to),
            Value::Int(value) => value.fmt(to),
            Value::UInt(value) => value.fmt(to),
        }
    }
}

/// A name with its value.
#[derive(Clone, Copy, Debug, PartialEq, Eq, Hash)]
pub struct Definition<'a> {
    /// The name.
    pub name: &'a str,
    /// Its value.
    pub value: Value,
}

impl<'a> Definition<'a> {
    /// A name with its value.
    pub fn new(name: &'a str, value: impl Into<Value>) -> Definition<'a> {
        Definition {
            name,
            value: value.into(),
        }
    }

    pub(crate) fn raw(&self) -> raw::Definition {
        let (kind, value) = match self.value {
            Value::Bool(value) => (raw::BOOL, i64::from(value)),
            Value::Int(value) => (raw::INT, i64::from(value)),
            Value::UInt(value) => (raw::UINT, i64::from(value)),
        };
        raw::Definition {
            name: self.name.as_ptr().cast(),
            name_len: self.name.len(),
            kind,
            value,
        }
    }
}

/// One of [`Metadata::definitions`].
impl<'a> From<&'a (String, Value)> for Definition<'a> {
    fn from(definition: &'a (String, Value)) -> Definition<'a> {
        Definition {
            name: &definition.0,
            value: definition.1,
        }
    }
}

/// A module that a text imports.
#[derive(Clone, Debug, PartialEq, Eq)]
pub struct Import {
    /// The module's import path.
    pub module: String,
    /// The index of the byte where the text first uses the module.
    pub place: usize,
    /// The items that the text uses of the module.
    pub items: Vec<String>,
}

/// A preprocessed text.
#[derive(Clone, Debug, PartialEq, Eq)]
pub struct Preprocessed {
    /// The text. Each line keeps its place.
    pub text: String,
    /// The modules that the text imports, in order of first use.
    pub imports: Vec<Import>,
}

/// What a text says of itself, whichever arms of its conditions are taken.
#[derive(Clone, Debug, PartialEq, Eq)]
pub struct Metadata {
    /// The text, with an empty line in place of each directive.
    pub text: String,
    /// The import path that the text defines.
    pub path: Option<String>,
    /// The modules that the text imports.
    pub imports: Vec<Import>,
    /// The definitions by `#define` with their values, in byte order of the names.
    pub definitions: Vec<(String, Value)>,
    /// The names on which the preprocessed text may depend, in byte order. Definitions that agree on these give the same text.
    pub names: Vec<String>,
    /// The directives `enable`, `requires` and `diagnostic`, as a shader begins with them.
    pub directives: String,
}

/// Preprocesses a text under definitions, of which the last with a name counts.
///
/// Lines of conditions and of arms that aren't taken become spaces, `#NAME` becomes the name's value, and an imported name the
/// name of the item in its module. The text's own `#define` lines have no effect here: [`metadata`] reads them.
///
/// # Errors
///
/// The first error of the text, or [`Error::OutOfMemory`].
///
/// # Examples
///
/// ```
/// use yettuvam::{preprocess, Definition, Source};
///
/// let source = Source::new("lake.wgsl", "#ifdef WAVES\nconst HEIGHT = #SCALE;\n#endif\n");
/// let definitions = [Definition::new("WAVES", true), Definition::new("SCALE", 4)];
/// assert_eq!(preprocess(source, &definitions)?.text.trim(), "const HEIGHT = 4;");
/// assert_eq!(preprocess(source, &[])?.text.trim(), "");
/// # Ok::<(), yettuvam::Error>(())
/// ```
pub fn preprocess(
    source: Source<'_>,
    definitions: &[Definition<'_>],
) -> Result<Preprocessed, Error> {
    let raw_source = source.raw();
    let raw_definitions: Vec<raw::Definition> = definitions.iter().map(Definition::raw).collect();
    // SAFETY: the call gets the page, and texts, definitions and their lengths that live through it.
    let page = unsafe {
        call(text_room(source), 64, |page| {
            raw::yettuvam_preprocess(
                &raw_source,
                raw_definitions.as_ptr(),
                raw_definitions.len(),
                page,
            )
        })
    }?;
    Ok(Preprocessed {
        text: text(&page),
        imports: page.imports(),
    })
}

/// Reads the metadata of a text, with or without `#define` lines allowed: a shader may have them, a module may not.
///
/// # Errors
///
/// The first error of the text, or [`Error::OutOfMemory`].
///
/// # Examples
///
/// ```
/// use yettuvam::{metadata, Source};
///
/// let source = Source::new("lake.wgsl", "#define_import_path lake\n#import noise::ripple\n#if WAVES > 2\nripple(1)\n#endif");
/// let lake = metadata(source, false)?;
/// assert_eq!(lake.path.as_deref(), Some("lake"));
/// assert_eq!(lake.imports[0].module, "noise");
/// assert_eq!(lake.imports[0].items, ["ripple"]);
/// assert_eq!(lake.names, ["WAVES"]);
/// # Ok::<(), yettuvam::Error>(())
/// ```
pub fn metadata(source: Source<'_>, allow_defines: bool) -> Result<Metadata, Error> {
    let raw_source = source.raw();
    // SAFETY: the call gets the page, and texts with their lengths that live through it.
    let page = unsafe {
        call(text_room(source), 64, |page| {
            raw::yettuvam_metadata(&raw_source, allow_defines, page)
        })
    }?;
    let path = page.texts(raw::PATH).next();
    let names = page.texts(raw::RECORDED).collect();
    let directives = page.texts(raw::DIRECTIVES).next().unwrap_or_default();
    Ok(Metadata {
        text: text(&page),
        path,
        imports: page.imports(),
        definitions: page.definitions(),
        names,
        directives,
    })
}

/// The bytes to begin with for a result that is about as long as the text.
fn text_room(source: Source<'_>) -> usize {
    source.text.len() + source.text.len() / 2 + 2048
}

/// The text of a result, which is its first field.
pub(crate) fn text(page: &Page) -> String {
    page.texts(raw::TEXT).next().unwrap_or_default()
}
