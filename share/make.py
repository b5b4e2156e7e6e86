"""Makes the man page and the completions of `yettuvam` from the text of its `--help`, so that they say the same.

    python3 share/make.py            writes them beside this file
    python3 share/make.py --check    compares them with what stands there; the status is 1 if one differs
"""
import os
import re
import sys

HERE = os.path.dirname(os.path.abspath(__file__))
SOURCE = os.path.join(HERE, '../crates/yettuvam_build/src/help.rt')
OPTION = re.compile(r'^ {4}(-\S+(?: [A-Z=]+)?) {2,}(\S.*)$')


def help_text():
    """The help and the version, as the program prints them."""
    with open(SOURCE, encoding='utf-8') as file:
        text = file.read()
    told = re.search(r'HELP: &str = "\\\n(.*?)";', text, re.S).group(1)
    version = re.search(r'VERSION: &str = "(.*?)\\n";', text).group(1)
    return told, version


class Help:
    """The parts of the help: what the program does, its commands with their lines and options, and the notes after them."""

    def __init__(self, text):
        first, *paragraphs = text.strip('\n').split('\n\n')
        self.summary = first.strip().rstrip('.')
        self.commands, self.notes = [], []
        for paragraph in paragraphs:
            head, *lines = paragraph.split('\n')
            if head.startswith('yettuvam '):
                options = [OPTION.match(line).groups() for line in lines if OPTION.match(line)]
                self.commands.append((head, [line.strip() for line in lines if not OPTION.match(line)], options))
            else:
                self.notes.append(' '.join(paragraph.split('\n')))

    def names(self):
        """The commands by name: those that are no options."""
        words = [head.split()[1] for head, _, _ in self.commands]
        return [word for word in words if not word.startswith('-')]

    def options(self):
        """The options of all commands: each with what stands for its value, if it has one, and what it does."""
        found = []
        for _, _, options in self.commands:
            for words, told in options:
                name, _, value = words.partition(' ')
                found.append((name, value, told))
        return [option for option in found if option[0] != '--']


def roff(text):
    """A text as troff takes it."""
    return text.replace('\\', '\\e').replace('-', '\\-')


def man_page(told, version):
    lines = [f'.TH YETTUVAM 1 "" "{version}"', '.SH NAME', f'yettuvam \\- {roff(told.summary.removeprefix("yettuvam "))}', '.SH SYNOPSIS']
    for head, _, _ in told.commands:
        lines += ['.nf', f'.B {roff(head)}', '.fi']
    lines.append('.SH DESCRIPTION')
    for head, text, options in told.commands:
        lines += ['.TP', f'.B {roff(head.split(" [")[0])}', roff(' '.join(text))]
        for words, meaning in options:
            lines += ['.RS', '.TP', f'.B {roff(words)}', roff(meaning), '.RE']
    lines.append('.SH NOTES')
    for note in told.notes:
        lines += ['.PP', roff(note)]
    return '\n'.join(lines) + '\n'


def bash(told):
    words = ' '.join([*told.names(), '-h', '--help', '--version'])
    options = ' '.join(name for name, _, _ in told.options())
    values = '|'.join(name for name, value, _ in told.options() if value)
    return f'''# Completions of yettuvam for bash.
_yettuvam() {{
    local word=${{COMP_WORDS[COMP_CWORD]}} before=${{COMP_WORDS[COMP_CWORD-1]}}
    if [ "$COMP_CWORD" -eq 1 ]; then
        mapfile -t COMPREPLY < <(compgen -W '{words}' -- "$word")
        return
    fi
    case $before in
        {values}) return ;;
    esac
    case $word in
        -*) mapfile -t COMPREPLY < <(compgen -W '{options}' -- "$word") ;;
        *) mapfile -t COMPREPLY < <(compgen -f -- "$word") ;;
    esac
}}
complete -o filenames -F _yettuvam yettuvam
'''


def zsh_text(text):
    return text.replace("'", "'\\''").replace(':', '\\:').replace('[', '\\[').replace(']', '\\]')


def zsh(told):
    lines = [f"        '*{name}[{zsh_text(meaning)}]{':' + value if value else ''}' \\" for name, value, meaning in told.options()]
    names = ' '.join(told.names())
    return '\n'.join(['#compdef yettuvam', '# Completions of yettuvam for zsh.', '_yettuvam() {', '    if (( CURRENT == 2 )); then', f'        compadd -- {names} -h --help --version', '        return', '    fi', '    shift words', '    (( CURRENT-- ))', '    _arguments \\', *lines, "        '*:file:_files'", '}', '_yettuvam "$@"', ''])


def fish_text(text):
    return text.replace('\\', '\\\\').replace("'", "\\'")


def fish(told):
    lines = ['# Completions of yettuvam for fish.']
    for name in told.names():
        lines.append(f"complete -c yettuvam -n __fish_use_subcommand -a {name} -d '{fish_text(told.summary)}'")
    for name, value, meaning in told.options():
        kind = f'-l {name[2:]}' if name.startswith('--') else f'-s {name[1:]}'
        lines.append(f"complete -c yettuvam -n 'not __fish_use_subcommand' {kind}{' -x' if value else ''} -d '{fish_text(meaning)}'")
    return '\n'.join(lines) + '\n'


def main():
    text, version = help_text()
    told = Help(text)
    made = {'yettuvam.1': man_page(told, version), 'yettuvam.bash': bash(told), '_yettuvam': zsh(told), 'yettuvam.fish': fish(told)}
    wrong = 0
    for name, content in made.items():
        path = os.path.join(HERE, name)
        if sys.argv[1:] == ['--check']:
            stands = open(path, encoding='utf-8').read() if os.path.exists(path) else None
            if stands != content:
                print(f'share/{name} is not what `--help` says: python3 share/make.py')
                wrong = 1
        else:
            with open(path, 'w', encoding='utf-8') as file:
                file.write(content)
    return wrong


sys.exit(main())
