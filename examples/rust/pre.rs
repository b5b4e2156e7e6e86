//! Tells a shader's text to a program in Rust:
//!     pre FILE [NAME=VALUE..]   prints what FILE becomes under the definitions, overwritten by its own
//!     pre                       prints what a small shader tells of itself

#[allow(dead_code)]
mod yettuvam;

use std::process::ExitCode;
use yettuvam::{Refusal, Told, Value, metadata, preprocess};

const SMALL: &str = "#define_import_path lake\n#import noise::{ripple, swell as wave}\n#define LAYERS 3\nheight = wave(#LAYERS, #SCALE)";

fn value_of(text: &str) -> Option<Value> {
    if let Ok(number) = text.parse() {
        return Some(Value::UInt(number));
    }
    if let Ok(number) = text.parse() {
        return Some(Value::Int(number));
    }
    text.parse().ok().map(Value::Bool)
}

// What a text becomes under the definitions among the words, overwritten by its own.
fn preprocessed(path: &str, text: &str, words: &[String]) -> Result<Told, Refusal> {
    let told = metadata(path, text, true)?;
    let given = words.iter().filter_map(|word| word.split_once('='));
    let mut defs: Vec<(String, Value)> = given
        .filter_map(|(name, value)| Some((name.to_string(), value_of(value)?)))
        .collect();
    defs.extend(told.defines);
    preprocess(path, &told.text, &defs)
}

fn main() -> ExitCode {
    let words: Vec<String> = std::env::args().skip(1).collect();
    let Some(path) = words.first() else {
        println!("{:#?}", metadata("lake.wgsl", SMALL, true));
        println!(
            "{:#?}",
            preprocess("lake.wgsl", "#if LAYERS > 2\n#endif", &[])
        );
        println!("{:#?}", metadata("lake.wgsl", "\nenable  ;", true));
        return ExitCode::SUCCESS;
    };
    let Ok(text) = std::fs::read_to_string(path) else {
        eprintln!("cannot read {path}");
        return ExitCode::from(2);
    };
    match preprocessed(path, &text, &words[1..]) {
        Ok(told) => {
            print!("{}", told.text);
            return ExitCode::SUCCESS;
        }
        Err(Refusal::Fault(report, _)) => eprint!("{report}"),
        Err(Refusal::NoMemory) => eprintln!("error: out of memory"),
    }
    ExitCode::FAILURE
}
