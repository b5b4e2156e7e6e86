//! Builds one shader in WGSL of shader modules, and preprocesses the texts of shaders.
//!
//! - [`Shader`] builds a text that a GPU's driver takes, of a shader and of the modules that it imports.
//! - [`preprocess`] reads the conditions, definitions and imports of one text.
//! - [`metadata`] says what one text imports and defines, and on which names it depends.
//!
//! The texts are in the language of the crate naga_oil: `#import`, `#define_import_path`, `#ifdef`, `virtual` and `override`.
//! The work is done by the static library Yettuvam, which is proved to be safe and to meet its contracts; this crate is not
//! proved, and hands texts to the library and back. The build script looks for `libyettuvam.a` in the folder that the environment
//! variable `YETTUVAM_LIB_DIR` names, then beside the crate, then where `pkg-config` finds it.
//!
//! # Examples
//!
//! ```
//! use yettuvam::{Shader, Source};
//!
//! let noise = "#define_import_path noise\nfn ripple(at: f32) -> f32 { return at + f32(#{SCALE}); }\n";
//! let top = "#import noise::ripple\n@fragment\nfn main() -> @location(0) vec4f { return vec4f(ripple(5.0)); }\n";
//!
//! let text = Shader::new(Source::new("top.wgsl", top))
//!     .module(Source::new("noise.wgsl", noise))
//!     .define("SCALE", 3)
//!     .build()?;
//! assert!(text.contains("fn rippleX_naga_oil_mod_XNZXWS43FX(at: f32) -> f32"));
//! # Ok::<(), yettuvam::Error>(())
//! ```

#![deny(missing_docs)]
#![deny(unsafe_op_in_unsafe_fn)]

mod error;
mod page;
mod raw;
mod shader;
mod text;

pub use error::{Error, Place};
pub use shader::Shader;
pub use text::{metadata, preprocess, Definition, Import, Metadata, Preprocessed, Source, Value};
