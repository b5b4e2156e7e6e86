# The packages of the library, part of `tests/c_library.sh`, which sets: root, folder, library, heap, and the function `fail`.
# Each part says what it leaves out where a tool is missing.

# Says that a part is left out, where one of these commands isn't there.
has() {
    for command in "$@"; do
        command -v "$command" > /dev/null && continue
        echo "c_library.sh: there is no $command, so this was left out: $part" >&2
        return 1
    done
}

# Runs a command, and shows what it printed where it fails.
quietly() {
    "$@" > "$folder/said" 2>&1 && return
    tail -n 30 "$folder/said" >&2
    fail "$part: $1 failed"
    return 1
}

# ---- The header

header_has_no_warnings() {
    printf '#include "yettuvam.h"\nint main(void) { return YETTUVAM_OK; }\n' > "$folder/header.c"
    cp "$folder/header.c" "$folder/header.cpp"
    part='the header in C'
    for standard in c99 c11; do
        quietly cc -std="$standard" -Wall -Wextra -Wpedantic -Werror -I "$root/crates/yettuvam_c/include" -fsyntax-only "$folder/header.c"
    done
    part='the header in C++'
    has c++ || return
    for standard in c++11 c++17; do
        quietly c++ -std="$standard" -Wall -Wextra -Wpedantic -Werror -I "$root/crates/yettuvam_c/include" -fsyntax-only "$folder/header.cpp"
    done
}

# The numbers of the Rust crate are those of the header, which has some more.
crate_has_the_header_numbers() {
    sed -n 's/^    YETTUVAM_\([A-Z0-9_]*\) = \([0-9]*\),\{0,1\}$/\1 \2/p' "$root/crates/yettuvam_c/include/yettuvam.h" | sort > "$folder/of_header"
    sed -n 's/^pub const \([A-Z0-9_]*\): u32 = \([0-9]*\);$/\1 \2/p' "$root/rust/src/raw.rs" | sort > "$folder/of_crate"
    [ -s "$folder/of_crate" ] && [ -z "$(comm -13 "$folder/of_header" "$folder/of_crate")" ] || fail 'rust/src/raw.rs has other numbers than the header'
}

# ---- What `make install` installs

# The code that docs/LIBRARY.md shows in a language, the first block.
shown() {
    awk -v head="\`\`\`$1" '$0 == head { on = 1; next } /^```$/ { if (on) exit } on' "$root/docs/LIBRARY.md"
}

# A prefix with what `make install` installs; two of this test's programs stand for the programs.
prefix=$folder/prefix
make_words="LIBRARY=$library HEAP=$heap YETTUVAM=$folder/lake OIL=$folder/pre OUT=$folder/packed"
installs() {
    part='make install'
    # shellcheck disable=SC2086
    quietly make -s -C "$root" $make_words PREFIX="$prefix" install || return
    [ "$(ar t "$prefix/lib/libyettuvam.a" | wc -l)" -ge 2 ] || fail 'the archive has less than two objects'
    cmp "$folder/lake" "$prefix/bin/yettuvam" && cmp "$folder/pre" "$prefix/bin/oil" || fail 'make install: the programs'
    for file in LICENSE-MIT LICENSE-APACHE NOTICE LIBRARY.md; do
        [ -s "$prefix/share/doc/yettuvam/$file" ] || fail "make install: there is no $file"
    done
}

# With another prefix and a folder before it, everything is removed again.
uninstalls() {
    part='make uninstall'
    # shellcheck disable=SC2086
    quietly make -s -C "$root" $make_words PREFIX=/usr LIBDIR=/usr/lib/x86_64-linux-gnu DESTDIR="$folder/staged" install || return
    [ -f "$folder/staged/usr/lib/x86_64-linux-gnu/libyettuvam.a" ] || fail 'make install: DESTDIR and LIBDIR'
    # shellcheck disable=SC2086
    quietly make -s -C "$root" $make_words PREFIX=/usr LIBDIR=/usr/lib/x86_64-linux-gnu DESTDIR="$folder/staged" uninstall
    [ -z "$(find "$folder/staged" -type f)" ] || fail 'make uninstall leaves files'
}

# Without a library `make` says how it is built, and doesn't build it.
says_what_is_missing() {
    part='make without a library'
    make -s -C "$root" LIBRARY="$folder/missing.a" HEAP="$heap" OUT="$folder/packed" > "$folder/said" 2>&1 && fail "$part: status 0"
    grep -q 'rt lib' "$folder/said" || fail "$part: it doesn't say how the library is built"
}

# ---- Programs over the installed library

makes_the_shown_shader() {
    "$@" > "$folder/printed" || fail "$part: status $?"
    grep -q '^fn rippleX_naga_oil_mod_XNZXWS43FX(at: f32) -> f32 {$' "$folder/printed" || fail "$part: no shader is printed"
}

# A program in C by pkg-config: prefix_of_package
c_by_pkg_config() {
    part='C by pkg-config'
    has pkg-config || return
    PKG_CONFIG_PATH=$1/lib/pkgconfig pkg-config --cflags --libs yettuvam > "$folder/flags" || fail "$part: no flags"
    shown c > "$folder/main.c"
    # pkg-config quotes white space.
    eval "quietly cc -std=c99 -Wall -Wextra -Werror '$folder/main.c' $(cat "$folder/flags") -o '$folder/main'" || return
    makes_the_shown_shader "$folder/main"
    eval "quietly cc '$root/examples/c/lake.c' $(cat "$folder/flags") -o '$folder/lake_again'" || return
    prints examples/c/lake.txt "$folder/lake_again"
}

# Programs in C++ by CMake: prefix_of_package
cpp_by_cmake() {
    part='C++ by CMake'
    has cmake c++ make || return
    mkdir -p "$folder/engine"
    shown cmake > "$folder/engine/CMakeLists.txt"
    shown cpp > "$folder/engine/main.cpp"
    rm -rf "$folder/engine_built" "$folder/reload_built"
    quietly cmake -S "$folder/engine" -B "$folder/engine_built" -DCMAKE_PREFIX_PATH="$1" -DCMAKE_CXX_FLAGS='-Wall -Wextra -Wpedantic -Werror' || return
    quietly cmake --build "$folder/engine_built" || return
    [ "$("$folder/engine_built/engine" | tr -d ' \n')" = 'constHEIGHT=4;' ] || fail "$part: the text of docs/LIBRARY.md"
    quietly cmake -S "$root/examples/hot_reload" -B "$folder/reload_built" -DCMAKE_PREFIX_PATH="$1" -DCMAKE_CXX_FLAGS='-Wall -Wextra -Wpedantic -Werror' || return
    quietly cmake --build "$folder/reload_built" || return
    # A version that isn't there isn't found.
    sed 's/Yettuvam 0.1/Yettuvam 0.2/' "$folder/engine/CMakeLists.txt" > "$folder/engine/other" && mv "$folder/engine/other" "$folder/engine/CMakeLists.txt"
    cmake -S "$folder/engine" -B "$folder/engine_built" -DCMAKE_PREFIX_PATH="$1" > "$folder/said" 2>&1 && fail "$part: version 0.2 is found"
    return 0
}

# ---- Rust

# Runs cargo on a copy of the crate, without network, with these variables: FOLDER [VARIABLE=VALUE..] -- WORDS
cargo_in() {
    at=$1
    shift
    variables=
    while [ "$1" != -- ]; do
        variables="$variables $1"
        shift
    done
    shift
    # shellcheck disable=SC2086
    quietly env -u YETTUVAM_LIB_DIR CARGO_TARGET_DIR="$folder/target" $variables sh -c 'cd "$1" && shift && exec cargo "$@"' cargo "$at" "$@"
}

crate_is_built() {
    part='the Rust crate'
    has cargo pkg-config || return
    cp -R "$root/rust" "$folder/crate"
    rm -rf "$folder/crate/target" "$folder/crate/Cargo.lock"
    crate_version=$(sed -n 's/^version = "\(.*\)"$/\1/p' "$root/rust/Cargo.toml")
    grep -qx "Version: $crate_version" "$prefix/lib/pkgconfig/yettuvam.pc" || fail "$part: another version than the library's"
    cargo_in "$folder/crate" PKG_CONFIG_PATH="$prefix/lib/pkgconfig" RUSTFLAGS=-Dwarnings -- build -q --offline --all-targets || return
    cargo_in "$folder/crate" PKG_CONFIG_PATH="$prefix/lib/pkgconfig" RUSTFLAGS=-Dwarnings -- test -q --offline --test calls || return
    grep -q '^test result: ok. [1-9]' "$folder/said" || fail "$part: no test was run"
    cargo_in "$folder/crate" PKG_CONFIG_PATH="$prefix/lib/pkgconfig" RUSTFLAGS=-Dwarnings -- test -q --offline --doc || return
    grep -q '^test result: ok. [1-9]' "$folder/said" || fail "$part: no doctest was run"
    # A program that depends on the crate, as docs/LIBRARY.md shows it.
    mkdir -p "$folder/program/src"
    printf '[package]\nname = "program"\nversion = "0.1.0"\nedition = "2021"\n\n' > "$folder/program/Cargo.toml"
    shown toml | sed "s|\.\./rust|$folder/crate|" >> "$folder/program/Cargo.toml"
    shown rs > "$folder/program/src/main.rs"
    cargo_in "$folder/program" YETTUVAM_LIB_DIR="$prefix/lib" RUSTFLAGS=-Dwarnings -- build -q --offline || return
    makes_the_shown_shader "$folder/target/debug/program"
    # Without a library the build script says what is missing.
    (cd "$folder/program" && env YETTUVAM_LIB_DIR="$folder/missing" CARGO_TARGET_DIR="$folder/target" cargo build -q --offline) > "$folder/said" 2>&1 && fail "$part: built without a library"
    grep -q 'YETTUVAM_LIB_DIR is .*which has no libyettuvam.a' "$folder/said" || fail "$part: it doesn't say that the library is missing"
}

# ---- Hot reload

# Waits until the program has printed so many rounds whole.
await_rounds() {
    for _ in $(seq 300); do
        [ "$(grep -c "^  night:" "$folder/rounds")" -ge "$1" ] && return
        sleep 0.1
    done
    fail "$part: round $1 hasn't come"
}

# Changes a file at once, as editors that replace it do: FILE SED_WORD
change() {
    sed "$2" "$folder/shaders/$1" > "$folder/shaders/$1.new" && mv "$folder/shaders/$1.new" "$folder/shaders/$1"
}

# Four rounds: the first, a change in an arm that one variant takes, an error, and the error mended.
reloads() {
    rm -rf "$folder/shaders" "$folder/input"
    cp -R "$root/examples/hot_reload/shaders" "$folder/shaders"
    mkfifo "$folder/input"
    : > "$folder/rounds"
    { timeout 120 "$1" "$folder/shaders" pond.wgsl 4; echo "status $?"; } < "$folder/input" > "$folder/rounds" 2>&1 &
    program=$!
    exec 8> "$folder/input"
    await_rounds 1
    change light.wgsl 's/1\.6/1.7/'
    await_rounds 2
    change waves.wgsl 's/return sum/return sun/'
    await_rounds 3
    change waves.wgsl 's/return sun/return sum/'
    wait "$program"
    exec 8>&-
    sed 's/[0-9.]* ms$/N ms/' "$folder/rounds" > "$folder/printed"
    cmp "$folder/printed" "$root/tests/c_library/hot_reload.txt" || { cat "$folder/printed" >&2; fail "$part prints other rounds"; }
    # At the end of standard input it ends.
    [ "$(timeout 60 "$1" "$folder/shaders" pond.wgsl < /dev/null | grep -c '^round')" -eq 1 ] || fail "$part goes on after the end of its input"
}

hot_reloads() {
    part='hot reload in C++'
    if [ -x "$folder/reload_built/hot_reload" ]; then reloads "$folder/reload_built/hot_reload"; fi
    part='hot reload in Rust'
    if [ -x "$folder/target/debug/examples/hot_reload" ]; then reloads "$folder/target/debug/examples/hot_reload"; fi
}

# ---- The tarball

tarball_works_elsewhere() {
    part='the tarball'
    printf 'fn a: proved\nlogic=proved functions=1\n' > "$folder/log"
    quietly env LIBRARY="$library" HEAP="$heap" YETTUVAM="$folder/lake" OIL="$folder/pre" LOG="$folder/log" sh "$root/dist.sh" "$folder/dist" || return
    mkdir "$folder/unpacked" && tar -xzf "$folder"/dist/yettuvam-*.tar.gz -C "$folder/unpacked" || fail "$part: unpacking"
    # A folder whose name has white space.
    place="$folder/another place"
    mv "$folder"/unpacked/yettuvam-* "$place"
    (cd "$folder/dist" && quietly sha256sum -c ./*.sha256) || fail "$part: its checksum"
    (cd "$place" && quietly sha256sum -c SHA256SUMS) || fail "$part: the checksums of its files"
    [ "$(cat "$place/PROOF")" = 'logic=proved functions=1' ] || fail "$part: the line of the proof"
    grep -rlF "$folder" "$place" > "$folder/said" && fail "$part names a folder of this test: $(cat "$folder/said")"
    c_by_pkg_config "$place"
    cpp_by_cmake "$place"
    part='the crate in the tarball'
    has cargo || return
    cp -R "$place" "$folder/elsewhere" && cargo_in "$folder/elsewhere/rust" PKG_CONFIG_PATH=/nowhere -- test -q --offline --doc
    part='the tarball without a log'
    quietly env LIBRARY="$library" HEAP="$heap" sh "$root/dist.sh" "$folder/dist" || return
    tar -xzOf "$folder"/dist/yettuvam-*.tar.gz --wildcards '*/PROOF' | grep -q 'is not here' || fail "$part: PROOF"
}

# ---- Random calls

random_calls() {
    part='random calls under the address sanitizer'
    printf 'int main(void) { return 0; }\n' > "$folder/empty.c"
    if ! cc -fsanitize=address "$folder/empty.c" -o "$folder/empty" 2> /dev/null || ! "$folder/empty"; then
        echo "c_library.sh: cc has no address sanitizer, so this was left out: $part" >&2
        return
    fi
    cc -std=c11 -O2 -g -Wall -Wextra -Werror -fsanitize=address -pthread -I "$root/crates/yettuvam_c/include" "$root/tests/c_library/random.c" \
        "$library" "$heap" -Wl,--wrap=malloc,--wrap=realloc,--wrap=free -o "$folder/random" || exit 1
    "$folder/random" "${CALLS:-20000}" "${SEED:-1}" > "$folder/said" 2>&1 || { tail -n 30 "$folder/said" >&2; fail "$part"; }
}
