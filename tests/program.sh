#!/bin/sh
# What `yettuvam` prints, and its status, for the command lines of its help and for what is wrong with words, files and texts. The
# program is YETTUVAM of the environment, else `yettuvam` at the top of the repository, which is proved and built at its first run.
root=$(CDPATH='' cd -- "$(dirname -- "$0")/.." && pwd) || exit 1
program=${YETTUVAM:-$root/yettuvam}
work=$(mktemp -d) || exit 1
trap 'rm -rf "$work"' EXIT
cd "$work" || exit 1
cp "$root"/crates/yettuvam/data/*.wgsl . || exit 1
count=0 failed=0

# Runs the program: the wanted status, the wanted text, the wanted first line of standard error, and the words.
expect() {
    status=$1 text=$2 error=$3
    shift 3
    "$program" "$@" > out 2> err < input
    got=$?
    count=$((count + 1))
    printf '%s' "$text" > wanted
    if [ "$got" != "$status" ] || ! cmp -s wanted out || [ "$(head -n 1 err)" != "$error" ]; then
        failed=$((failed + 1))
        echo "yettuvam $*: status $got, wanted $status"
        diff wanted out
        printf 'wanted error: %s\n' "$error"
        cat err
    fi
}

# Runs the program on texts with an error: the wanted report, and the words.
told() {
    report=$1
    shift
    "$program" "$@" > out 2> err < input
    got=$?
    count=$((count + 1))
    printf '%s\n' "$report" > wanted
    if [ "$got" != 1 ] || [ -s out ] || ! cmp -s wanted err; then
        failed=$((failed + 1))
        echo "yettuvam $*: status $got, wanted 1"
        diff wanted err
    fi
}

usage='usage: yettuvam build TOP [MODULE..] [-D NAME[=VALUE]].. [--with MODULE].. [--override-any]'
made=$(cat "$root/crates/yettuvam/stdout"; echo x)
made=${made%x}
: > input

# ---- words
expect 0 'yettuvam 0.1.0
' '' --version
help=$("$root/yettuvam" --help; echo x)
help=${help%x}
expect 0 "$help" '' -h
expect 0 "$help" '' build --help
expect 0 "$help" '' build -h
expect 2 '' "$usage"
expect 2 '' "$usage" build
expect 2 '' "$usage" make top.wgsl
expect 2 '' "$usage" build top.wgsl -D
expect 2 '' "$usage" build top.wgsl --with
expect 2 '' "$usage" build -x top.wgsl
expect 2 '' "$usage" --help build
expect 2 '' 'bad definition =2' build top.wgsl -D =2
expect 2 '' 'bad definition GAIN=two' build top.wgsl -D GAIN=two

# ---- files
expect 0 "$made" '' build top.wgsl fog.wgsl lighting.wgsl --with fog -D GAIN=2
expect 0 "$made" '' build -D GAIN=2 --with fog top.wgsl lighting.wgsl fog.wgsl
expect 0 "$made" '' build top.wgsl lighting.wgsl fog.wgsl --override-any -DGAIN=2 --with fog
cp fog.wgsl input
expect 0 "$made" '' build top.wgsl - lighting.wgsl --with fog -D GAIN=2
: > input
cp top.wgsl -- -D
expect 0 "$made" '' build -D GAIN=2 --with fog -- -D fog.wgsl lighting.wgsl
expect 2 '' 'cannot read --with' build -- top.wgsl --with fog
expect 2 '' 'cannot read missing.wgsl' build missing.wgsl
expect 2 '' 'cannot read missing.wgsl' build top.wgsl missing.wgsl
printf '\377' > latin.wgsl
expect 2 '' 'cannot read latin.wgsl' build latin.wgsl
cp fog.wgsl mist.wgsl
expect 1 '' 'error: fog.wgsl and mist.wgsl have the same import path' build top.wgsl fog.wgsl mist.wgsl lighting.wgsl
printf '#define_import_path a\n#import b\nfn f() { b::g(); }\n' > a.wgsl
printf '#define_import_path b\n#import a\nfn g() { a::f(); }\n' > b.wgsl
printf '#import a\n@compute @workgroup_size(1) fn main() { a::f(); }\n' > cycle.wgsl
expect 1 '' 'error: a module imports itself: a.wgsl imports b.wgsl imports a.wgsl' build cycle.wgsl a.wgsl b.wgsl

# ---- texts
printf '' > empty.wgsl
expect 0 '' '' build empty.wgsl
printf 'const A = 4;\n' > const.wgsl
expect 0 'const A = 4;
' '' build const.wgsl

# ---- errors in texts
printf 'fn f() {}\n  #ifdef A\n#ifdef B\n#endif\n' > open.wgsl
told 'error: a condition has no `#endif`
  --> open.wgsl:2:3
   |
 2 |   #ifdef A
   |   ^^^^^^^^ opened here' build open.wgsl
printf 'enable f16;\r\nfn f() {}\r\n#if Q > 2\r\n#endif\r\n' > lines.wgsl
told 'error: `Q` isn'"'"'t defined
  --> lines.wgsl:3:1
   |
 3 | #if Q > 2
   | ^^^^^^^^^
   = note: `#if NAME == VALUE` compares a defined name, and `#ifdef NAME` asks whether a name is defined' build lines.wgsl
told 'error: no module `fogg`
  --> const.wgsl
   = note: a file with `#define_import_path fogg` is needed' build const.wgsl --with fogg

echo "$count command lines, $failed failed"
[ "$failed" = 0 ]
