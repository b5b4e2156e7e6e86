//! Builds three variants of a shader, and builds them again when a file in its folder changes:
//!
//!     cargo run --example hot_reload -- FOLDER SHADER [ROUNDS]     as in: ../examples/hot_reload/shaders pond.wgsl
//!
//! SHADER is a file of FOLDER; the other .wgsl files there are its modules. A round begins with a change of modification times or
//! sizes, and prints for each variant whether its text changed, and the milliseconds of the build. After an error an engine keeps
//! the last text. The program ends at the end of standard input, or after ROUNDS rounds.

use std::collections::{BTreeMap, BTreeSet};
use std::path::Path;
use std::process::ExitCode;
use std::sync::mpsc::{channel, Receiver, RecvTimeoutError};
use std::time::{Duration, Instant, SystemTime};
use std::{fs, io, thread};
use yettuvam::{Definition, Shader, Source, Value};

const POLL: Duration = Duration::from_millis(200);

struct Variant {
    name: &'static str,
    definitions: &'static [(&'static str, Value)],
}

const VARIANTS: [Variant; 3] = [
    Variant {
        name: "low",
        definitions: &[("WAVES", Value::Int(2))],
    },
    Variant {
        name: "high",
        definitions: &[("WAVES", Value::Int(6)), ("FOAM", Value::Bool(true))],
    },
    Variant {
        name: "night",
        definitions: &[("WAVES", Value::Int(6)), ("NIGHT", Value::Bool(true))],
    },
];

struct File {
    time: SystemTime,
    size: u64,
    text: String,
}

type Files = BTreeMap<String, File>;

/// A file, without its text where it is as it was.
fn read(path: &Path, known: Option<&File>) -> io::Result<Option<File>> {
    let data = fs::metadata(path)?;
    let (time, size) = (data.modified()?, data.len());
    if known.map_or(false, |file| (file.time, file.size) == (time, size)) {
        return Ok(None);
    }
    let text = String::from_utf8_lossy(&fs::read(path)?).into_owned();
    Ok(Some(File { time, size, text }))
}

/// Reads the files of the folder that changed, and returns their names. A file that is gone has changed too.
fn look(folder: &Path, files: &mut Files) -> io::Result<BTreeSet<String>> {
    let mut changed = BTreeSet::new();
    let mut found = BTreeSet::new();
    for entry in fs::read_dir(folder)? {
        let path = entry?.path();
        let name = match path.file_name().and_then(|name| name.to_str()) {
            Some(name) if name.ends_with(".wgsl") => name.to_string(),
            _ => continue,
        };
        match read(&path, files.get(&name)) {
            Ok(Some(file)) => {
                files.insert(name.clone(), file);
                changed.insert(name.clone());
            }
            Ok(None) => {}
            // A file may be gone by now, as where an editor replaces it. The next look finds the new one.
            Err(_) => continue,
        }
        found.insert(name);
    }
    changed.extend(files.keys().filter(|name| !found.contains(*name)).cloned());
    files.retain(|name, _| found.contains(name));
    Ok(changed)
}

/// Builds a shader of its file and of the other files.
fn build(shader: &str, files: &Files, definitions: &[(&str, Value)]) -> Result<String, String> {
    let top = files
        .get(shader)
        .ok_or_else(|| format!("error: there is no file {shader}"))?;
    let modules = files.iter().filter(|(name, _)| *name != shader);
    Shader::new(Source::new(shader, &top.text))
        .modules(modules.map(|(name, file)| Source::new(name, &file.text)))
        .definitions(
            definitions
                .iter()
                .map(|(name, value)| Definition::new(name, *value)),
        )
        .build()
        .map_err(|error| error.to_string())
}

/// Builds a variant again, and says what became of it. The last text stays where there is an error.
fn renew(shader: &str, files: &Files, variant: &Variant, last: &mut String) {
    let start = Instant::now();
    let built = build(shader, files, variant.definitions);
    let taken = start.elapsed().as_secs_f64() * 1e3;
    match built {
        Err(report) => println!("  {}: error, {taken:.2} ms\n{report}", variant.name),
        Ok(text) if text == *last => println!("  {}: as before, {taken:.2} ms", variant.name),
        Ok(text) => {
            println!(
                "  {}: changed, {} bytes, {taken:.2} ms",
                variant.name,
                text.len()
            );
            *last = text;
        }
    }
}

/// A channel that closes at the end of standard input.
fn end_of_input() -> Receiver<()> {
    let (sender, receiver) = channel();
    thread::spawn(move || {
        let _ = io::copy(&mut io::stdin(), &mut io::sink());
        drop(sender);
    });
    receiver
}

fn watch(folder: &Path, shader: &str, rounds: Option<usize>) -> io::Result<()> {
    let input = end_of_input();
    let mut files = Files::new();
    let mut texts = [String::new(), String::new(), String::new()];
    let mut round = 0;
    loop {
        let changed = look(folder, &mut files)?;
        if !changed.is_empty() {
            round += 1;
            println!(
                "round {round}: {}",
                changed.into_iter().collect::<Vec<_>>().join(" ")
            );
            for (variant, last) in VARIANTS.iter().zip(&mut texts) {
                renew(shader, &files, variant, last);
            }
            if rounds == Some(round) {
                return Ok(());
            }
        }
        if input.recv_timeout(POLL) != Err(RecvTimeoutError::Timeout) {
            return Ok(());
        }
    }
}

fn main() -> ExitCode {
    let words: Vec<String> = std::env::args().skip(1).collect();
    if words.len() < 2 {
        eprintln!("usage: hot_reload FOLDER SHADER [ROUNDS]");
        return ExitCode::from(2);
    }
    let rounds = words.get(2).and_then(|rounds| rounds.parse().ok());
    match watch(Path::new(&words[0]), &words[1], rounds) {
        Ok(()) => ExitCode::SUCCESS,
        Err(error) => {
            eprintln!("error: {}: {error}", words[0]);
            ExitCode::from(2)
        }
    }
}
