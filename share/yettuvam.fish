# Completions of yettuvam for fish.
complete -c yettuvam -n __fish_use_subcommand -a build -d 'yettuvam builds one shader out of several files'
complete -c yettuvam -n 'not __fish_use_subcommand' -s D -x -d 'defines NAME as a number, as true or false; as true without =VALUE'
complete -c yettuvam -n 'not __fish_use_subcommand' -l with -x -d 'imports MODULE besides what TOP\'s text uses'
complete -c yettuvam -n 'not __fish_use_subcommand' -l override-any -d 'lets any imported function be overridden, not only virtual'
