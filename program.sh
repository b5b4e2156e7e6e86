# What `oil` and `yettuvam` share: each proves and builds its program where it isn't built yet, and runs it.
# They set: root (this folder), program_name, program_crate, texts (the folder of its sources with its own
# texts), and the functions is_help, is_understood and say_how_to_try.
crate=$root/crates/$program_crate
program=$crate/out/$program_crate
logs=$crate/out/logs
shown_logs=crates/$program_crate/out/logs

say() {
    printf '%s: %s\n' "$program_name" "$*" >&2
}

# ---- Answers without a build

# The text of a constant of the program's source.
constant() {
    sed -n "/^\(pub \)\{0,1\}const $1: /,/\";\$/p" "$texts/$2" | sed -e '1s/^[^"]*$//' -e '1s/^[^"]*"//' -e 's/^ *"usage/usage/' \
        -e 's/";$//' -e 's/\\n$//' -e '/^\\\{0,1\}$/{1d;$d;}' -e 's/\\\\/\\/g'
}

answer_without_build() {
    is_help "$@" && { constant HELP help.rt; exit 0; }
    [ "$#$1" = 1--version ] && { constant VERSION help.rt; exit 0; }
    is_understood "$@" || { constant USAGE refusal.rt >&2; exit 2; }
}

# ---- The build

# What to do where a crate wasn't built.
give_up() {
    tail -n 12 "$logs/$1.log" >&2
    say "$1 was not built. What its proof printed is in $shown_logs/$1.log"
    say "Run ./$program_name again, which keeps what was proved; or try it without any proof, in crates/$program_crate:"
    say_how_to_try
    end_builds
    exit 1
}

# How long a first run takes on this number of processors.
expected_time() {
    case $1 in
        1) echo 'three hours' ;;
        2 | 3) echo 'two hours' ;;
        *) echo 'an hour' ;;
    esac
}

# The crates that a crate depends on by its line in the list of crates.
depends_on() {
    sed -n -e 's/ *#.*//' -e "s/^$1: *//p" "$root/crates.txt"
}

# The crates of this repository that the program is built of, lowest first, and the program.
names() {
    wanted=" $program_crate " more=$program_crate
    while [ -n "$more" ]; do
        below=$(for name in $more; do depends_on "$name"; done)
        more=
        for name in $below; do
            case $wanted in *" $name "*) ;; *) wanted="$wanted$name " more="$more $name" ;; esac
        done
    done
    sed -n 's/^\([a-z0-9_]*\):.*/\1/p' "$root/crates.txt" | while read -r name; do
        case $wanted in *" $name "*) echo "$name" ;; esac
    done
}

# Proves and builds a crate, and notes how it ended. A run of the program without words ends with its usage line.
build_crate() {
    if [ "$1" = "$program_crate" ]; then
        (cd "$crate" && rt run)
        [ -x "$program" ]
    else
        (cd "$root/crates/$1" && rt lib)
    fi > "$logs/$1.log" 2>&1 < /dev/null && : > "$logs/$1.built" || : > "$logs/$1.failed"
}

# Whether a crate is yet to begin, and what it depends on is built.
is_next() {
    [ ! -e "$logs/$1.begun" ] || return 1
    for below in $(depends_on "$1"); do
        case " $all " in *" $below "*) [ -e "$logs/$below.built" ] || return 1 ;; esac
    done
}

# How many crates are proved at once: one for two processors, and for 4 GB of memory that is free.
at_once() {
    awk -v processors="$1" '
        /^MemAvailable:/ { most = int($2 / 4000000) }
        END { count = int(processors / 2); if (most < count) count = most; print (count > 1 ? count : 1) }' /proc/meminfo
}

# The number of files with this ending among the logs.
count_of() {
    find "$logs" -name "*.$1" | wc -l
}

# Ends the builds that are still running; each is the leader of a process group of its own.
end_builds() {
    for build in $builds; do
        env kill -TERM -- "-$build" 2>/dev/null
    done
    wait
}

minutes_so_far() {
    echo $((($(date +%s) - started) / 60))
}

# Says which crates were proved since the last look.
say_what_is_done() {
    for name in $all; do
        [ -e "$logs/$name.built" ] && [ ! -e "$logs/$name.said" ] || continue
        : > "$logs/$name.said"
        say "$name is proved: $(count_of said) of $number, $(minutes_so_far) minutes so far"
    done
}

# Proves and builds all crates, each when what it depends on is built.
build() {
    processors=$(getconf _NPROCESSORS_ONLN)
    say "the first run proves and builds the program, once, in about $(expected_time "$processors")"
    rm -rf "$logs" && mkdir -p "$logs" || exit 1
    builds=
    trap 'end_builds; exit 130' INT
    trap 'end_builds; exit 143' TERM HUP
    all=$(names | tr '\n' ' ')
    number=$(echo "$all" | wc -w)
    at_once=$(at_once "$processors")
    started=$(date +%s)
    while [ "$(count_of built)" -lt "$number" ]; do
        say_what_is_done
        for name in $all; do
            [ ! -e "$logs/$name.failed" ] || give_up "$name"
            [ $(($(count_of begun) - $(count_of built))) -lt "$at_once" ] && is_next "$name" || continue
            : > "$logs/$name.begun"
            say "proving $name; its log is $shown_logs/$name.log"
            setsid "$0" --build-crate "$name" 9>&- &
            builds="$builds $!"
        done
        sleep 1
    done
    say_what_is_done
    trap - INT TERM HUP
    say "built, in $(minutes_so_far) minutes"
}

# Builds the program unless it is built, one run of this script after the other.
build_alone() {
    mkdir -p "$crate/out" || exit 1
    exec 9> "$crate/out/building" || exit 1
    flock -n 9 || { say "another ./$program_name is building the program; this one waits for it"; flock 9; }
    [ -x "$program" ] || build
    exec 9>&-
}

# Runs the program with these words.
run_program() {
    if [ "$1" = --build-crate ]; then
        build_crate "$2"
        exit
    fi
    if [ ! -x "$program" ]; then
        answer_without_build "$@"
        build_alone
    fi
    exec "$program" "$@"
}
