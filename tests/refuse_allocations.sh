#!/bin/sh
# Runs `oil` on a few inputs, and refuses one allocation after another, alone and with all after it. Each output has to be that
# with ample memory, or the line `error: out of memory` with status 1 and nothing on standard output. Then the same for a list of
# commands in one composer, whose replies have to be those of the commands run one by one, where at most one ran out of memory. At
# last every allocation is refused during calls that allocate nothing (`naga_oil_probe`).
# Needs a C compiler, and a loader that knows LD_PRELOAD. The programs are OIL and PROBE of the environment, else those that `oil`
# and `rt run` build.
root=$(CDPATH='' cd -- "$(dirname -- "$0")/.." && pwd) || exit 1
program=${OIL:-$root/crates/naga_oil_mini/out/naga_oil_mini}
probe=${PROBE:-$root/crates/naga_oil_probe/out/naga_oil_probe}
# A call without words builds the program, where it isn't built yet.
[ -x "$program" ] || "$root/oil" > /dev/null
if [ ! -x "$program" ]; then
    "$root/oil"
    exit 1
fi
[ -x "$probe" ] || (cd "$root/crates/naga_oil_probe" && rt run -- commands) > /dev/null
if [ ! -x "$probe" ]; then
    echo "refuse_allocations.sh: there is no program $probe" >&2
    exit 1
fi
folder=$(mktemp -d) || exit 1
trap 'rm -rf "$folder"' EXIT

cat > "$folder/refuse.c" <<'END'
/* Refuses the allocation with this number, with REFUSED_REST also those after it, and creates a file when it does. With number 0 it
   refuses each allocation after the program writes `without memory`, until the program writes something else, and creates another
   file when that begins. */
#define _GNU_SOURCE
#include <dlfcn.h>
#include <errno.h>
#include <fcntl.h>
#include <stdlib.h>
#include <string.h>
#include <unistd.h>

static long allocations;
static int is_without_memory;

static int is_refused(void)
{
    const char *wanted = getenv("REFUSED_ALLOCATION");
    const char *file = getenv("REFUSED_FILE");
    if (!wanted || !file)
        return 0;
    allocations++;
    if (!(atol(wanted) ? allocations == atol(wanted) || (allocations > atol(wanted) && getenv("REFUSED_REST")) : is_without_memory))
        return 0;
    close(open(file, O_CREAT | O_WRONLY, 0600));
    errno = ENOMEM;
    return 1;
}

ssize_t write(int file, const void *text, size_t size)
{
    static const char start[] = "without memory";
    static ssize_t (*next)(int, const void *, size_t);
    if (!next)
        next = dlsym(RTLD_NEXT, "write");
    is_without_memory = size >= strlen(start) && !memcmp(text, start, strlen(start));
    if (is_without_memory && getenv("BEGUN_FILE"))
        close(open(getenv("BEGUN_FILE"), O_CREAT | O_WRONLY, 0600));
    return next(file, text, size);
}

void *malloc(size_t size)
{
    static void *(*next)(size_t);
    if (!next)
        next = dlsym(RTLD_NEXT, "malloc");
    return is_refused() ? 0 : next(size);
}

void *realloc(void *old, size_t size)
{
    static void *(*next)(void *, size_t);
    if (!next)
        next = dlsym(RTLD_NEXT, "realloc");
    return is_refused() ? 0 : next(old, size);
}

void *calloc(size_t count, size_t size)
{
    static void *(*next)(size_t, size_t);
    if (!next)
        next = dlsym(RTLD_NEXT, "calloc");
    return is_refused() ? 0 : next(count, size);
}

void *aligned_alloc(size_t alignment, size_t size)
{
    static void *(*next)(size_t, size_t);
    if (!next)
        next = dlsym(RTLD_NEXT, "aligned_alloc");
    return is_refused() ? 0 : next(alignment, size);
}

int posix_memalign(void **out, size_t alignment, size_t size)
{
    static int (*next)(void **, size_t, size_t);
    if (!next)
        next = dlsym(RTLD_NEXT, "posix_memalign");
    return is_refused() ? ENOMEM : next(out, alignment, size);
}
END
"${CC:-cc}" -shared -fPIC -o "$folder/refuse.so" "$folder/refuse.c" -ldl || exit 1

refused=0
wrong=0

wrong_answer() {
    wrong=$((wrong + 1))
    echo "wrong: $1, allocation $2: status $3"
    cat "$folder/now.out" "$folder/now.err"
}

is_ample_answer() {
    [ "$1" -eq "$ample" ] && cmp -s "$folder/now.out" "$folder/ample.out" && cmp -s "$folder/now.err" "$folder/ample.err"
}

is_out_of_memory() {
    [ "$1" -eq 1 ] && [ ! -s "$folder/now.out" ] && [ "$(cat "$folder/now.err")" = 'error: out of memory' ]
}

# Runs a command with one allocation refused; succeeds if that allocation was requested.
run_refused() {
    number=$1
    shift
    rm -f "$folder/refused"
    LD_PRELOAD=$folder/refuse.so REFUSED_ALLOCATION=$number REFUSED_FILE=$folder/refused BEGUN_FILE=$folder/begun \
        "$@" > "$folder/now.out" 2> "$folder/now.err"
    status=$?
    [ -e "$folder/refused" ]
}

# One input: its name, the status with ample memory, and the words after `oil`.
refuse_each() {
    name=$1
    expected=$2
    shift 2
    "$program" "$@" > "$folder/ample.out" 2> "$folder/ample.err"
    ample=$?
    cp "$folder/ample.out" "$folder/now.out"
    cp "$folder/ample.err" "$folder/now.err"
    [ "$ample" -eq "$expected" ] || wrong_answer "$name" none "$ample"
    allocation=1
    while run_refused $allocation "$program" "$@"; do
        is_ample_answer "$status" || is_out_of_memory "$status" || wrong_answer "$name" "$allocation" "$status"
        REFUSED_REST=yes
        export REFUSED_REST
        run_refused $allocation "$program" "$@"
        unset REFUSED_REST
        is_ample_answer "$status" || is_out_of_memory "$status" || wrong_answer "$name" "$allocation and the rest" "$status"
        allocation=$((allocation + 1))
    done
    is_ample_answer "$status" || wrong_answer "$name" none "$status"
    echo "$name: $((allocation - 1)) allocations refused"
    refused=$((refused + allocation - 1))
}

# The text of the next input.
text=$folder/text.wgsl

cat > "$text" <<'END'
/* one /* two */ #ifdef A */ let a = 1; // #endif
let quoted = "/* no comment */"; /*
#ifdef B */
END
refuse_each 'comments' 0 pre "$text"

cat > "$text" <<'END'
#ifdef A
#if COUNT >= 3
let a = 1;
#else ifdef B
let a = 2;
#else
let a = 3;
#endif
#else if X
let a = 4;
#endif
END
refuse_each 'conditions' 0 pre "$text" A= COUNT=3
refuse_each 'conditions that do not hold' 0 pre "$text" COUNT=2 X=false
refuse_each 'a bad definition' 2 pre "$text" A= COUNT=two

cat > "$text" <<'END'
#define SIZE 7
let a = #COUNT * #{OFFSET}u + #MISSING; // #COUNT
let b = array<f32, # {LAST}>(#IS_ON);
END
refuse_each 'definitions' 0 pre "$text" COUNT=4294967295 OFFSET=-12 LAST=3 IS_ON=false

cat > "$text" <<'END'
#import lights::{
    point::{shade, falloff as fall},
    "sky.wgsl"::ambient
}
#import tone
#import old::module first, second as other;
fn main() -> f32 { return shade(fall(1.0)) + ambient() + tone::map(first, other); }
fn unused() -> f32 { return x.shade + @shade lights::area::size; }
END
refuse_each 'imports' 0 pre "$text"

cat > "$text" <<'END'
#import a::{b, c::b}
let x = b;
END
refuse_each 'an ambiguous name' 1 pre "$text"

printf 'let a = 1;\n#if UNKNOWN == 3\n#endif\n' > "$text"
refuse_each 'an unknown definition' 1 pre "$text"

printf '#if COUNT == true\n#endif\n' > "$text"
refuse_each 'a value of another type' 1 pre "$text" COUNT=3

printf '#if COUNT ~~ 3\n#endif\n' > "$text"
refuse_each 'an unknown operator' 1 pre "$text" COUNT=3

printf '#ifdef A\nlet a = 1;\n#ifdef B\n' > "$text"
refuse_each 'an open chain' 1 pre "$text" A= B=true

printf '#import a::{b,\n' > "$text"
refuse_each 'an open import' 1 pre "$text"

cat > "$text" <<'END'
// lights
enable f16, subgroups;

requires packed_4x8_integer_dot_product;
diagnostic(off, derivative_uniformity);
#define_import_path lights
#define COUNT 3
#import tone
let a = tone::map(#COUNT, #MISSING); // #NAMED
END
refuse_each 'directives' 0 pre "$text"

printf 'enable f16;\ndiagnostic(no, rule);\n' > "$text"
refuse_each 'a wrong directive' 1 pre "$text"

cat > "$text" <<'END'
// Füße, 足, 🦶
#import maße::{größe, 長さ as 丈}
#ifdef größe
let a = größe(丈) * #größe; /* 🦶 */
#endif
END
refuse_each 'a text beyond ASCII' 0 pre "$text" größe=7

# The files of the next shaders.
top=$folder/top.txt
lamp=$folder/lamp.txt
dim=$folder/dim.txt

printf '#define_import_path lamp\nconst GLOW = 1\nvirtual fn light(x) = x + GLOW\n' > "$lamp"
printf '#define_import_path dim\n#import lamp\noverride fn lamp::light(x) = lamp::light(x) + #DIM\n' > "$dim"
printf '#import lamp\nentry main = lamp::light(5)\n' > "$top"
refuse_each 'a shader of files' 0 make "$top" "$lamp"
refuse_each 'a missing module' 1 make "$top" "$dim"
refuse_each 'a module that is not there' 2 make "$top" "$folder/nothing.txt"

: > "$text"
refuse_each 'an empty text' 0 pre "$text"
refuse_each 'no words' 2
refuse_each 'a file that is not there' 2 pre "$folder/nothing.wgsl"

# Shaders of several files.
cd "$root/examples/lighting" || exit 1
refuse_each 'a shader of seven files' 0 make top.txt palette.txt units.txt sphere.txt lighting.txt fog.txt night.txt \
    +fog +night SKY=5
refuse_each 'an import that is not registered' 1 make top.txt palette.txt lighting.txt SKY=5
refuse_each 'a definition that is missing' 1 make top.txt palette.txt units.txt sphere.txt lighting.txt

cd "$folder" || exit 1
printf '#define_import_path a\nvirtual fn f(x) = x + 1\n' > a.txt
printf '#define_import_path b\n#import a\noverride fn a::f(x) = a::f(x) + 10\n' > b.txt
printf '#define_import_path b\n#import a\nfn h(x) = a::f(x)\noverride fn a::f(x) = h(x)\n' > turning.txt
printf '#define_import_path a\nfn f(x) = x + 1\n' > plain.txt
printf '#import a\nentry main = a::f(5)\n' > top.txt
printf '#import a\nentry main = a::f(5, 6)\n' > wrong.txt
refuse_each 'an override' 0 make top.txt a.txt b.txt +b
refuse_each 'a function that is not virtual' 1 make top.txt plain.txt b.txt +b
refuse_each 'overrides in a circle' 1 make top.txt a.txt turning.txt +b
refuse_each 'a shader that is not valid' 1 make wrong.txt a.txt
refuse_each 'a module that is not read' 1 make top.txt a.txt b.txt wrong.txt

# ---- Commands in one composer: a module is added, shaders are built of it without X, with X, with X and Y and with X, the module is
# removed and added again, and a shader is built with X. Then one more is built with X.
with='made: "fn gX_naga_oil_mod_XNUX() = 1\nentry main = gX_naga_oil_mod_XNUX()\n"'
without='made: "fn gX_naga_oil_mod_XNUX() = 2\nentry main = gX_naga_oil_mod_XNUX()\n"'
missing='not made: ImportNotFound("m", 13) from 0'
unmade='not made: Memory from 0'
unadded='not added: Memory'
outcomes=0

# An output that is right: the command that ran out of memory, the module's index after the run, the number of builds that were kept,
# the shader that is built after that, and the replies.
outcome() {
    outcomes=$((outcomes + 1))
    echo "$1" > "$folder/outcome.$outcomes.name"
    place=$2
    builds=$3
    again=$4
    shift 4
    {
        echo commands
        printf '%s\n' "$@"
        echo "m at $place, counter 0, $builds builds"
        printf '%s\n' "$again"
    } > "$folder/outcome.$outcomes"
}

added='added: 1'
outcome 'no command' 'Some(1)' 3 "$with" "$added" "$without" "$with" "$with" "$with" removed "$added" "$with"
outcome 'the run itself' None 0 "$missing" 'no replies: Memory'
outcome 'the first command' 'Some(1)' 1 "$with" "$unadded" "$missing" "$missing" "$missing" "$missing" removed "$added" "$with"
outcome 'the second command' 'Some(1)' 2 "$with" "$added" "$unmade" "$with" "$with" "$with" removed "$added" "$with"
outcome 'the second command, once it was built' 'Some(1)' 3 "$with" "$added" "$unmade" "$with" "$with" "$with" removed "$added" "$with"
outcome 'the third command' 'Some(1)' 3 "$with" "$added" "$without" "$unmade" "$with" "$with" removed "$added" "$with"
outcome 'the fourth command' 'Some(1)' 3 "$with" "$added" "$without" "$with" "$unmade" "$with" removed "$added" "$with"
outcome 'the fifth command' 'Some(1)' 3 "$with" "$added" "$without" "$with" "$with" "$unmade" removed "$added" "$with"
outcome 'the sixth command' 'Some(1)' 3 "$with" "$added" "$without" "$with" "$with" "$with" 'not removed: Memory' "$added" "$with"
outcome 'the seventh command' None 2 "$missing" "$added" "$without" "$with" "$with" "$with" removed "$unadded" "$missing"
outcome 'the last command' 'Some(1)' 2 "$with" "$added" "$without" "$with" "$with" "$with" removed "$added" "$unmade"
outcome 'the last command, once it was built' 'Some(1)' 3 "$with" "$added" "$without" "$with" "$with" "$with" removed "$added" "$unmade"
outcome 'the shader after the run' 'Some(1)' 3 "$unmade" "$added" "$without" "$with" "$with" "$with" removed "$added" "$with"

# Whether the output is one of these; notes which.
is_outcome() {
    [ "$status" -eq 0 ] || return 1
    number=1
    while [ "$number" -le "$outcomes" ]; do
        if cmp -s "$folder/now.out" "$folder/outcome.$number"; then
            cat "$folder/outcome.$number.name" >> "$folder/seen"
            return 0
        fi
        number=$((number + 1))
    done
    return 1
}

# Whether memory ran out before the run or while the replies were printed, which are then those with ample memory.
is_unprinted() {
    [ "$status" -eq 1 ] && [ "$(cat "$folder/now.err")" = 'error: out of memory' ] || return 1
    head -c "$(wc -c < "$folder/now.out")" "$folder/outcome.1" | cmp -s - "$folder/now.out" || return 1
    echo 'making the commands, or printing the replies' >> "$folder/seen"
}

: > "$folder/seen"
allocation=1
while run_refused $allocation "$probe" commands; do
    is_outcome || is_unprinted || wrong_answer 'commands' "$allocation" "$status"
    allocation=$((allocation + 1))
done
[ "$status" -eq 0 ] && cmp -s "$folder/now.out" "$folder/outcome.1" || wrong_answer 'commands' none "$status"
echo "commands: $((allocation - 1)) allocations refused, by what ran out of memory:"
sort "$folder/seen" | uniq -c
refused=$((refused + allocation - 1))

# ---- Calls that allocate nothing, while every allocation is refused.
rm -f "$folder/begun"
printf 'without memory\nwith memory\neach call answered: true\n' > "$folder/ample.out"
if run_refused 0 "$probe" calls || [ ! -e "$folder/begun" ] || [ "$status" -ne 0 ] || ! cmp -s "$folder/now.out" "$folder/ample.out"; then
    wrong_answer 'calls that allocate nothing' every "$status"
else
    echo 'calls that allocate nothing: none requested memory'
fi

echo "$refused allocations refused, $wrong wrong"
[ "$wrong" -eq 0 ]
