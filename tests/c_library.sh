#!/bin/sh
# Builds the programs in C, in C++ and in Rust over the static library, and compares what they print with what stands beside them.
# Then it installs the library, makes the tarball, and builds programs over both, as docs/LIBRARY.md shows them; and it makes CALLS
# random calls (20,000) from SEED (1) under the address sanitizer. The library is built first, by
#     (cd crates/yettuvam_c && rt lib)
# It is crates/yettuvam_c/out/libyettuvam_c.a, or LIBRARY of the environment; the toolchain's liblibc_c.a is in the folder that
# `rt doc` names, or HEAP. Needs `cc` and `make`. On Debian this has the rest, and what is missing is left out with a line that says so:
#     apt-get install --no-install-recommends gcc g++ make cmake pkg-config rustc cargo
# `examples/rust` needs Rust 1.85, and the crate in `rust` 1.63.
root=$(CDPATH='' cd -- "$(dirname -- "$0")/.." && pwd) || exit 1
library=${LIBRARY:-$root/crates/yettuvam_c/out/libyettuvam_c.a}
if [ ! -f "$library" ]; then
    echo "c_library.sh: there is no $library. Build it: (cd crates/yettuvam_c && rt lib)" >&2
    exit 1
fi
heap=${HEAP:-$(dirname "$(rt doc | head -n 1)")/c/liblibc_c.a}
if [ ! -f "$heap" ]; then
    echo "c_library.sh: the toolchain has no $heap" >&2
    exit 1
fi
folder=$(mktemp -d) || exit 1
trap 'rm -rf "$folder"' EXIT
failed=0

# Says that something isn't as it has to be.
fail() {
    echo "c_library.sh: $*" >&2
    failed=1
}

# Builds a program in C.
compile() {
    name=$1
    shift
    cc -std=c11 -O2 -Wall -Wextra -Werror -I "$root/crates/yettuvam_c/include" "$@" "$library" "$heap" -o "$folder/$name" || exit 1
}

# What a program prints, with its status, is what is stored.
prints() {
    stored=$1
    shift
    { "$@" 2>&1; echo "status $?"; } > "$folder/printed"
    cmp "$folder/printed" "$root/$stored" || fail "$* doesn't print $stored"
}

# A preprocessed shader is the one that `oil pre` prints.
preprocesses() {
    cd "$root/examples/water" || exit 1
    "$1" ripple.wgsl WAVES=1 SCALE=4 | cmp - ripple_preprocessed.wgsl || fail "$1: ripple.wgsl"
    "$1" water.wgsl SCALE=4 | cmp - preprocessed.wgsl || fail "$1: water.wgsl"
    cd "$root" || exit 1
}

# The README shows lines of the first program.
sed -n '/^```c$/,/^```$/{/^```/d;p;}' "$root/README.md" > "$folder/shown.c"
tail -n "$(wc -l < "$folder/shown.c")" "$root/examples/c/lake.c" | cmp - "$folder/shown.c" || fail 'README shows other code than examples/c/lake.c'

compile lake "$root/examples/c/lake.c"
prints examples/c/lake.txt "$folder/lake"
compile pre "$root/examples/c/pre.c"
prints examples/c/told.txt "$folder/pre"
preprocesses "$folder/pre"
printf '#else\n' > "$folder/faulty.wgsl"
(cd "$folder" && prints examples/c/faulty.txt ./pre faulty.wgsl; exit "$failed") || failed=1

# A built shader is the one that stands beside its modules.
builds() {
    cd "$root/examples/scene" || exit 1
    "$folder/build" scene.wgsl fog.wgsl frame.wgsl light.wgsl material.wgsl math.wgsl night.wgsl noise.wgsl terrain.wgsl \
        LAYERS=10 PLACE=11 FOG=4 "$@"
    cd "$root" || exit 1
}
compile build "$root/examples/c/build.c"
builds | cmp - "$root/examples/scene/made_clear.wgsl" || fail 'build: the clear scene'
builds +scene::fog | cmp - "$root/examples/scene/made.wgsl" || fail 'build: the scene with fog'
printf 'fn f() { let x = y; }\n' > "$folder/unknown.wgsl"
(cd "$folder" && ./build unknown.wgsl 2> told > made; [ $? -eq 1 ] && grep -q 'unknown.wgsl:1:18' told && [ ! -s made ]) || fail 'build: an unknown name'

compile scarce "$root/tests/c_library/scarce.c" -Wl,--wrap=malloc,--wrap=realloc,--wrap=free
prints tests/c_library/scarce.txt "$folder/scarce"

# Whether the Rust compiler is of version 1.85 or later, which takes edition 2024.
takes_edition_2024() {
    command -v rustc > /dev/null && echo 'fn main() {}' | rustc --edition 2024 --emit metadata --crate-name empty -o "$folder/empty.rmeta" - 2> /dev/null
}

if takes_edition_2024; then
    rustc --edition 2024 -O -D warnings "$root/examples/rust/pre.rs" -C "link-arg=$library" -C "link-arg=$heap" -o "$folder/pre_rust" || exit 1
    prints examples/rust/told.txt "$folder/pre_rust"
    preprocesses "$folder/pre_rust"
    (cd "$folder" && prints examples/c/faulty.txt ./pre_rust faulty.wgsl; exit "$failed") || failed=1
    rustc --edition 2024 -O -D warnings "$root/examples/rust/build.rs" -C "link-arg=$library" -C "link-arg=$heap" -o "$folder/build" || exit 1
    builds | cmp - "$root/examples/scene/made_clear.wgsl" || fail 'build in Rust: the clear scene'
    builds +scene::fog | cmp - "$root/examples/scene/made.wgsl" || fail 'build in Rust: the scene with fog'
else
    echo 'c_library.sh: there is no rustc of version 1.85 or later, so the programs of examples/rust were left out' >&2
fi

. "$root/tests/c_library/packages.sh"
header_has_no_warnings
crate_has_the_header_numbers
says_what_is_missing
installs
uninstalls
c_by_pkg_config "$prefix"
cpp_by_cmake "$prefix"
crate_is_built
hot_reloads
tarball_works_elsewhere
random_calls

[ "$failed" -eq 0 ] || exit 1
echo 'the programs over the library print what stands beside them'
