// A shader to build of its text and of modules.

use crate::page::call;
use crate::text::text;
use crate::{raw, Definition, Error, Source, Value};

/// A shader to build: its text, the texts of modules, definitions, and imports besides those of its text.
///
/// The modules may be given in any order. Whether or not the shader reaches it, a module defines an import path of its own, imports
/// modules that are there, has no `#define` and no decorated name, and takes numbers of `@binding(auto)`. Other errors are reported
/// in modules that the shader reaches, and the text has of a module what the shader reaches.
///
/// A build reads the texts and keeps nothing, so a text that was changed is built again by another call, and calls of several
/// threads are independent.
///
/// # Examples
///
/// A module whose function is overridden by another module, which the shader imports besides those of its text:
///
/// ```
/// use yettuvam::{Shader, Source};
///
/// let light = "#define_import_path light\nvirtual fn shade(x: f32) -> f32 { return x + 1.0; }\n";
/// let fog = "#define_import_path fog\n#import light\n\
///     override fn light::shade(x: f32) -> f32 { return light::shade(x) * #{FOG}.0; }\n";
/// let day = "#import light\n@fragment\nfn main() -> @location(0) vec4f { return vec4f(light::shade(5.0)); }\n";
///
/// let shader = Shader::new(Source::new("day.wgsl", day))
///     .module(Source::new("fog.wgsl", fog))
///     .module(Source::new("light.wgsl", light))
///     .define("FOG", 4);
/// assert!(!shader.build()?.contains("4.0"));
/// assert!(shader.clone().import("fog").build()?.contains("4.0"));
/// # Ok::<(), yettuvam::Error>(())
/// ```
#[derive(Clone, Debug)]
pub struct Shader<'a> {
    source: Source<'a>,
    modules: Vec<Source<'a>>,
    definitions: Vec<Definition<'a>>,
    imports: Vec<&'a str>,
    override_any: bool,
}

impl<'a> Shader<'a> {
    /// A shader without modules, definitions, and imports besides those of its text.
    pub fn new(source: Source<'a>) -> Shader<'a> {
        Shader {
            source,
            modules: Vec::new(),
            definitions: Vec::new(),
            imports: Vec::new(),
            override_any: false,
        }
    }

    /// Adds a module.
    pub fn module(mut self, module: Source<'a>) -> Shader<'a> {
        self.modules.push(module);
        self
    }

    /// Adds modules.
    pub fn modules(mut self, modules: impl IntoIterator<Item = Source<'a>>) -> Shader<'a> {
        self.modules.extend(modules);
        self
    }

    /// Defines a name. The last definition of a name counts.
    pub fn define(mut self, name: &'a str, value: impl Into<Value>) -> Shader<'a> {
        self.definitions.push(Definition::new(name, value));
        self
    }

    /// Adds definitions. The last definition of a name counts.
    pub fn definitions(
        mut self,
        definitions: impl IntoIterator<Item = Definition<'a>>,
    ) -> Shader<'a> {
        self.definitions.extend(definitions);
        self
    }

    /// Imports a module besides those of the shader's text, as one that overrides functions.
    pub fn import(mut self, module: &'a str) -> Shader<'a> {
        self.imports.push(module);
        self
    }

    /// Whether any imported function can be overridden, and not only virtual ones. It is false in a new shader.
    ///
    /// ```
    /// use yettuvam::{Shader, Source};
    ///
    /// let shader = Shader::new(Source::new("top.wgsl", "#import sea\noverride fn sea::depth() -> f32 { return 2.0; }"))
    ///     .module(Source::new("sea.wgsl", "#define_import_path sea\nfn depth() -> f32 { return 1.0; }"));
    /// assert!(shader.build().unwrap_err().to_string().contains("virtual"));
    /// assert!(shader.override_any(true).build().is_ok());
    /// ```
    pub fn override_any(mut self, allow: bool) -> Shader<'a> {
        self.override_any = allow;
        self
    }

    /// Builds the shader, and returns its text in WGSL: what the program `yettuvam build` prints for the same files.
    ///
    /// # Errors
    ///
    /// The first error of the texts, with a report that names the file, the line and the column, or [`Error::OutOfMemory`].
    ///
    /// ```
    /// use yettuvam::{Shader, Source};
    ///
    /// let error = Shader::new(Source::new("main.wgsl", "fn f() { let x = y; }")).build().unwrap_err();
    /// assert!(error.to_string().contains("main.wgsl:1:18"));
    /// ```
    pub fn build(&self) -> Result<String, Error> {
        let modules: Vec<raw::Source> = self.modules.iter().map(|module| module.raw()).collect();
        let definitions: Vec<raw::Definition> =
            self.definitions.iter().map(Definition::raw).collect();
        let imports: Vec<raw::Name> = self.imports.iter().map(|name| raw_name(name)).collect();
        let task = raw::Task {
            shader: self.source.raw(),
            modules: modules.as_ptr(),
            modules_len: modules.len(),
            definitions: definitions.as_ptr(),
            definitions_len: definitions.len(),
            imports: imports.as_ptr(),
            imports_len: imports.len(),
            override_any: self.override_any,
        };
        // SAFETY: the call gets the page, and a task whose texts, lists and their lengths live through it.
        let page = unsafe { call(self.room(), 1, |page| raw::yettuvam_build(&task, page)) }?;
        Ok(text(&page))
    }

    /// The bytes to begin with: a built text has decorated names, so it may be longer than the texts that it is made of.
    fn room(&self) -> usize {
        let modules: usize = self.modules.iter().map(|module| module.text.len()).sum();
        2 * (self.source.text.len() + modules) + 4096
    }
}

fn raw_name(name: &str) -> raw::Name {
    raw::Name {
        text: name.as_ptr().cast(),
        text_len: name.len(),
    }
}
