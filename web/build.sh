#!/bin/sh
# Makes web/dist, the page with the library as WebAssembly: build.sh [yettuvam.wasm]
# With a word only the page is made, with that library. Without one the library is made first, of the proved one:
#     (cd crates/yettuvam_c && rt lib)
# proves it and keeps what it proved; then the compiler's text for x86-64 is kept and compiled again for wasm64, over heap.c.
# That the text means the same there is not proved: both have pointers of 64 bits and the same order of bytes.
# To see the page: `python3 -m http.server -d web/dist`, and http://localhost:8000 in a browser with WebGPU.
here=$(CDPATH='' cd -- "$(dirname -- "$0")" && pwd) || exit 2
root=$(dirname "$here")
folder=$(mktemp -d) || exit 2
trap 'rm -rf "$folder"' EXIT
CALLS='yettuvam_preprocess yettuvam_metadata yettuvam_build page_take page_give'
TARGET='--target=wasm64-unknown-unknown -mcpu=generic -mbulk-memory -mnontrapping-fptoint -msign-ext -mmutable-globals'

# A copy of the toolchain whose compiler keeps what it is given.
keeping_toolchain() {
    mkdir -p "$folder/toolchain/bin"
    ln -s "$kit/toolchain/lib" "$folder/toolchain/lib"
    for tool in ld.lld llvm-ar rattle-x64; do
        ln -s "$kit/toolchain/bin/$tool" "$folder/toolchain/bin/$tool"
    done
    cat > "$folder/toolchain/bin/clang" << END
#!/bin/sh
for word in "\$@"; do
    case \$word in *.ll | *.bc) cp "\$word" "$folder/library.bc" ;; esac
done
exec "$kit/toolchain/bin/clang" "\$@"
END
    chmod +x "$folder/toolchain/bin/clang"
}

# Keeps the text of the library that is built for x86-64.
keep_library() {
    python3 "$here/words.py" "$kit" "$root" > "$folder/words" || exit 1
    set --
    while IFS= read -r word; do set -- "$@" "$word"; done < "$folder/words"
    (cd "$root/crates/yettuvam_c" && "$kit/bin/rattle" "$@" --toolchain "$folder/toolchain" -o "$folder/library.a") > "$folder/said" 2>&1 && [ -f "$folder/library.bc" ] || {
        tail -n 5 "$folder/said" >&2
        exit 1
    }
}

# The library for wasm64: its text with another layout of data, and without what is said of the other processor.
compile_library() {
    clang=$kit/toolchain/bin/clang
    "$clang" -x ir "$folder/library.bc" -S -emit-llvm -O0 -Xclang -disable-llvm-passes -o "$folder/library.ll" || exit 1
    # shellcheck disable=SC2086
    "$clang" $TARGET -O3 -nostdlib -ffreestanding -S -emit-llvm "$here/heap.c" -o "$folder/heap.ll" || exit 1
    layout=$(grep -m 1 '^target datalayout' "$folder/heap.ll")
    sed -e "s|^target datalayout.*|$layout|" -e 's|^target triple.*|target triple = "wasm64-unknown-unknown"|' \
        -e 's/ "\(probe-stack\|stack-probe-size\|target-cpu\|target-features\|tune-cpu\)"="[^"]*"//g' "$folder/library.ll" > "$folder/other.ll"
    # shellcheck disable=SC2086
    "$clang" $TARGET -O3 -ffunction-sections -fdata-sections -nostdlib -ffreestanding -x ir -c "$folder/other.ll" -o "$folder/library.o" || exit 1
    # shellcheck disable=SC2086
    "$clang" $TARGET -O3 -ffunction-sections -fdata-sections -nostdlib -ffreestanding -c "$here/heap.c" -o "$folder/heap.o" || exit 1
    cp "$kit/toolchain/bin/ld.lld" "$folder/wasm-ld"
    set --
    for call in $CALLS; do set -- "$@" "--export=$call"; done
    "$folder/wasm-ld" -mwasm64 --no-entry --gc-sections -z stack-size=1048576 --stack-first --export-memory "$@" \
        -o "$folder/yettuvam.wasm" "$folder/library.o" "$folder/heap.o" || exit 1
}

# The page, with the projects of its gallery.
make_page() {
    rm -rf "$here/dist"
    mkdir -p "$here/dist" || exit 1
    cp "$here/index.html" "$here/style.css" "$here"/*.mjs "$here/dist"
    cp -r "$here/projects" "$here/dist/projects"
    rm "$here/dist/projects/fifty/make.py"
    python3 "$here/projects/fifty/make.py" "$here/dist/projects/fifty"
    for file in "$root"/examples/scene/*.wgsl; do
        case $file in */made*) ;; *) cp "$file" "$here/dist/projects/scene" ;; esac
    done
    cp "$1" "$here/dist/yettuvam.wasm"
}

library=$1
if [ -z "$library" ]; then
    kit=$(dirname "$(rt doc | head -n 1)")
    keeping_toolchain
    keep_library
    compile_library
    library=$folder/yettuvam.wasm
fi
make_page "$library"
echo "web/dist is made: $(du -sh "$here/dist" | cut -f 1), the library $(wc -c < "$here/dist/yettuvam.wasm") bytes"
