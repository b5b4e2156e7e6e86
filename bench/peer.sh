#!/bin/sh
# Builds the text layer of naga_oil's own source, in Rust, as a program `peer`: `sh bench/peer.sh FOLDER UPSTREAM`. UPSTREAM is
# the folder of that source (with `src/compose/preprocess.rs` in it). Nothing of it is copied but into FOLDER: files are included by
# their paths, and of those that name other crates the few items that are needed are cut out. Crates come from the folder CRATES
# (sources, one folder each), else from cargo's own cache, else from where Debian's packages put them; none is fetched.
# Status 1, and a line that says why, where it can't be built.
here=$(CDPATH='' cd -- "$(dirname -- "$0")" && pwd) || exit 1
mkdir -p "$1/src" || exit 1
folder=$(CDPATH='' cd -- "$1" && pwd -P) || exit 1
upstream=$(CDPATH='' cd -- "$2" && pwd) || exit 1

give_up() {
    echo "$*" >&2
    exit 1
}

# A file of the source, also where it is kept with another ending.
source_of() {
    for file in "$upstream/src/compose/$1.rs" "$upstream/src/compose/$1.rs.txt"; do
        [ -f "$file" ] && echo "$file" && return
    done
    return 1
}

# A module that is a file of the source.
module() {
    file=$(source_of "$1") || exit 1
    printf '#[path = "%s"]\npub mod %s;\n' "$file" "$1"
}

compose() {
    echo 'use std::ops::Range;'
    for name in comment_strip_iter parse_imports preprocess tokenizer wgsl_directives; do
        module "$name" || exit 1
    done
    awk -v items='const DECORATION_PRE|const DECORATION_POST|pub enum ShaderDefValue|impl ShaderDefValue|pub struct ImportDefWithOffset' \
        -f "$here/peer.awk" "$(source_of mod)"
    awk -v items='pub struct ImportDefinition' -f "$here/peer.awk" "$(source_of mod)" | sed 's/(Clone/(Default, Clone/'
    awk -v items='pub enum ComposerErrorInner' -f "$here/peer.awk" "$(source_of error)"
    echo 'pub struct Composer;'
    echo 'impl Composer {'
    awk -v items='    fn decorate' -f "$here/peer.awk" "$(source_of mod)"
    echo '}'
}

# The same as `oil pre`: the metadata, for the definitions of the text, and the text under these. With a number behind the file, so
# many times; then the least seconds of the processor for the metadata and for the text are told on standard error.
main_function() {
    cat << 'END'
fn seconds() -> f64 {
    let told = std::fs::read_to_string("/proc/self/schedstat").unwrap();
    told.split(' ').next().unwrap().parse::<f64>().unwrap() / 1e9
}

fn once(source: &str) -> (f64, f64, String) {
    let reader = compose::preprocess::Preprocessor::default();
    let start = seconds();
    let data = reader.get_preprocessor_metadata(source, true).unwrap();
    let between = seconds();
    let output = reader.preprocess(&data.cleaned_source, &data.defines).unwrap();
    (between - start, seconds() - between, output.preprocessed_source)
}

fn main() {
    let words: Vec<String> = std::env::args().collect();
    let source = std::fs::read_to_string(&words[1]).unwrap();
    let times = words.get(2).map_or(1, |word| word.parse().unwrap());
    let mut least = (f64::MAX, f64::MAX);
    let mut text = String::new();
    for _ in 0..times {
        let (metadata, preprocessed, output) = once(&source);
        least = (least.0.min(metadata), least.1.min(preprocessed));
        text = output;
    }
    if words.len() > 2 {
        eprintln!("{:.6} {:.6}", least.0, least.1);
    }
    use std::io::Write;
    std::io::stdout().write_all(text.as_bytes()).unwrap();
}
END
}

manifest() {
    cat << 'END'
[package]
name = "peer"
version = "0.0.0"
edition = "2021"

[features]
default = ["allow_deprecated"]
allow_deprecated = []

[dependencies]
data-encoding = "2"
indexmap = "*"
regex = "1"
unicode-ident = "1"

[profile.release]
opt-level = 3
END
}

# Crates from a folder of their sources.
from_folder() {
    mkdir -p "$folder/.cargo"
    printf '[source.crates-io]\nreplace-with = "folder"\n[source.folder]\ndirectory = "%s"\n' "$1" > "$folder/.cargo/config.toml"
}

build() {
    (cd "$folder" && cargo build --release --offline --quiet) > "$folder/log" 2>&1
}

rm -f "$folder/peer"
command -v cargo > /dev/null || give_up 'there is no cargo'
source_of preprocess > /dev/null || give_up "$upstream has no src/compose/preprocess.rs"
manifest > "$folder/Cargo.toml"
{
    echo '#![allow(dead_code, unused, private_interfaces)]'
    echo 'mod compose {'
    compose
    echo '}'
    main_function
} > "$folder/src/main.rs" || give_up 'the source is of another shape'
if [ -n "$CRATES" ]; then
    from_folder "$CRATES"
elif ! build && grep -q 'no matching package\|failed to \(get\|download\)\|unable to' "$folder/log"; then
    [ -d /usr/share/cargo/registry ] || give_up "its crates aren't on this machine: $(grep -m 1 '^error' "$folder/log")"
    from_folder /usr/share/cargo/registry
fi
build || give_up "not built: $(grep -m 1 '^error' "$folder/log")"

# Versions of `regex` before 1.8 refuse the escape `\"`, which means `"`: for these it is written so in a copy of the one file that has it.
peer=$folder/target/release/peer
echo 'a' > "$folder/probe"
if ! "$peer" "$folder/probe" > /dev/null 2>&1; then
    file=$(source_of comment_strip_iter)
    sed '/Regex::new/s/\\"/"/g' "$file" > "$folder/src/comment_strip_iter.rs"
    sed "s|\"$file\"|\"$folder/src/comment_strip_iter.rs\"|" "$folder/src/main.rs" > "$folder/src/main.tmp"
    mv "$folder/src/main.tmp" "$folder/src/main.rs"
    build || give_up "not built: $(grep -m 1 '^error' "$folder/log")"
    "$peer" "$folder/probe" > "$folder/log" 2>&1 || give_up "it doesn't run: $(grep -m 1 -i 'error' "$folder/log")"
fi
ln -sf "$peer" "$folder/peer"

# The versions of the two crates that matter.
version_of() {
    sed -n "/^name = \"$1\"\$/{n;s/^version = \"\(.*\)\"/\1/p;}" "$folder/Cargo.lock"
}
echo "regex $(version_of regex), indexmap $(version_of indexmap), $(rustc --version | cut -d ' ' -f 1-2)" > "$folder/crates"
