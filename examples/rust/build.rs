//! Builds a shader in WGSL of files:
//!     build TOP [MODULE..] [NAME=NUMBER..] [+MODULE..]   prints the shader, with the modules after `+` besides those of its text

#[allow(dead_code)]
mod yettuvam;

use std::process::ExitCode;
use yettuvam::{Build, Refusal, Value, build};

fn main() -> ExitCode {
    let words: Vec<String> = std::env::args().skip(1).collect();
    let imports: Vec<&str> = words
        .iter()
        .filter_map(|word| word.strip_prefix('+'))
        .collect();
    let definitions: Vec<(String, Value)> = words
        .iter()
        .filter_map(|word| word.split_once('='))
        .filter_map(|(name, value)| Some((name.to_string(), Value::Int(value.parse().ok()?))))
        .collect();
    let paths = words
        .iter()
        .filter(|word| !word.starts_with('+') && !word.contains('='));
    let mut texts: Vec<(&str, String)> = Vec::new();
    for path in paths {
        let Ok(text) = std::fs::read_to_string(path) else {
            eprintln!("cannot read {path}");
            return ExitCode::from(2);
        };
        texts.push((path, text));
    }
    let files: Vec<(&str, &str)> = texts
        .iter()
        .map(|(path, text)| (*path, text.as_str()))
        .collect();
    let Some((shader, modules)) = files.split_first() else {
        return ExitCode::from(2);
    };
    match build(&Build {
        shader: *shader,
        modules,
        definitions: &definitions,
        imports: &imports,
        override_any: false,
    }) {
        Ok(text) => {
            print!("{text}");
            return ExitCode::SUCCESS;
        }
        Err(Refusal::Fault(report, _)) => eprint!("{report}"),
        Err(Refusal::NoMemory) => eprintln!("error: out of memory"),
    }
    ExitCode::FAILURE
}
