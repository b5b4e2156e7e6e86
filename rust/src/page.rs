// The memory that a call writes its result to.

use crate::{raw, Error, Import, Place, Value};

/// A result that the library has written: the bytes of its texts, and its fields.
pub struct Page {
    out: Vec<u8>,
    fields: Vec<raw::Field>,
}

/// Calls the library with room for `bytes` bytes and `count` fields, and again with more room where the result needs more.
///
/// # Safety
///
/// `run` hands the page on to a call of the library, whose status it returns, with arguments as the header requires.
pub unsafe fn call(
    mut bytes: usize,
    mut count: usize,
    run: impl Fn(*mut raw::Page) -> u32,
) -> Result<Page, Error> {
    loop {
        let mut out: Vec<u8> = room(bytes)?;
        let mut fields: Vec<raw::Field> = room(count)?;
        let mut page = raw::Page {
            out: out.as_mut_ptr().cast(),
            out_len: bytes,
            fields: fields.as_mut_ptr(),
            fields_len: count,
            bytes: 0,
            count: 0,
        };
        let status = run(&mut page);
        match status {
            raw::OK | raw::FAULTY if page.bytes <= bytes && page.count <= count => {
                // SAFETY: with these statuses the library has written the first `page.bytes` bytes of `out` and the first
                // `page.count` fields, and there is room for so many.
                unsafe {
                    out.set_len(page.bytes);
                    fields.set_len(page.count);
                }
                let written = Page { out, fields };
                return if status == raw::OK {
                    Ok(written)
                } else {
                    Err(written.error())
                };
            }
            raw::NO_ROOM if page.bytes > bytes || page.count > count => {
                bytes = bytes.max(page.bytes);
                count = count.max(page.count);
            }
            raw::NO_MEMORY => return Err(Error::OutOfMemory),
            other => return Err(Error::Status(other)),
        }
    }
}

/// An empty vector with room for so many items.
fn room<T>(count: usize) -> Result<Vec<T>, Error> {
    let mut empty = Vec::new();
    empty
        .try_reserve_exact(count)
        .map_err(|_| Error::OutOfMemory)?;
    Ok(empty)
}

impl Page {
    /// The text of a field.
    fn text_of(&self, field: &raw::Field) -> String {
        let rest = self.out.get(field.at..).unwrap_or_default();
        String::from_utf8_lossy(rest.get(..field.len).unwrap_or_default()).into_owned()
    }

    /// The texts of the fields with a kind.
    pub fn texts(&self, kind: u32) -> impl Iterator<Item = String> + '_ {
        self.fields
            .iter()
            .filter(move |field| field.kind == kind)
            .map(move |field| self.text_of(field))
    }

    /// The modules that the text imports, each with the items that follow it.
    pub fn imports(&self) -> Vec<Import> {
        let mut imports: Vec<Import> = Vec::new();
        for field in &self.fields {
            match (field.kind, imports.last_mut()) {
                (raw::IMPORT, _) => imports.push(Import {
                    module: self.text_of(field),
                    place: field.place,
                    items: Vec::new(),
                }),
                (raw::ITEM, Some(import)) => import.items.push(self.text_of(field)),
                _ => {}
            }
        }
        imports
    }

    /// The definitions of the text.
    pub fn definitions(&self) -> Vec<(String, Value)> {
        let definition = |field: &raw::Field| {
            let value = match field.kind {
                raw::BOOL => Value::Bool(field.value != 0),
                raw::INT => Value::Int(i32::try_from(field.value).ok()?),
                raw::UINT => Value::UInt(u32::try_from(field.value).ok()?),
                _ => return None,
            };
            Some((self.text_of(field), value))
        };
        self.fields.iter().filter_map(definition).collect()
    }

    /// The error of a text, whose report is the only field.
    fn error(&self) -> Error {
        let field = match self.fields.first() {
            Some(field) => field,
            None => return Error::Status(raw::FAULTY),
        };
        Error::Text {
            report: self.text_of(field),
            place: match field.kind {
                raw::FAULT => Some(Place::Byte(field.place)),
                raw::FAULT_LINE => Some(Place::Line(field.place)),
                _ => None,
            },
        }
    }
}
