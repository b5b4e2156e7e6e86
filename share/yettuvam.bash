# Completions of yettuvam for bash.
_yettuvam() {
    local word=${COMP_WORDS[COMP_CWORD]} before=${COMP_WORDS[COMP_CWORD-1]}
    if [ "$COMP_CWORD" -eq 1 ]; then
        mapfile -t COMPREPLY < <(compgen -W 'build -h --help --version' -- "$word")
        return
    fi
    case $before in
        -D|--with) return ;;
    esac
    case $word in
        -*) mapfile -t COMPREPLY < <(compgen -W '-D --with --override-any' -- "$word") ;;
        *) mapfile -t COMPREPLY < <(compgen -f -- "$word") ;;
    esac
}
complete -o filenames -F _yettuvam yettuvam
