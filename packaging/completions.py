"""The completions of three shells, made from the helps of the program. `--explain` may come before the command."""


def names_of(options):
    return [name for it in options for name in it.names]


def is_path(it):
    """Whether an argument of a command is a path, by its help."""
    return it.meaning.startswith('The path')


def takes_paths(told):
    return any(map(is_path, told.arguments))


# ---- bash

def bash(whole, commands):
    """Options after a hyphen, the words that an option takes, and paths where a command takes them."""
    cases = [f"        {name}) options='{' '.join(names_of(told.options))}' paths={'1' if takes_paths(told) else ''} ;;" for name, told in commands.items()]
    valued = {it.names[0]: ' '.join(it.values) for told in commands.values() for it in told.options if it.takes}
    names = ' '.join(it.words for it in whole.commands)
    return '\n'.join([
        '_pebbles() {',
        '    local word=${COMP_WORDS[COMP_CWORD]} before=${COMP_WORDS[COMP_CWORD - 1]} options= paths= first=1',
        '    COMPREPLY=()',
        '    [[ ${COMP_WORDS[1]} == --explain ]] && ((COMP_CWORD > 1)) && first=2',
        '    if ((COMP_CWORD == first)); then',
        f"        COMPREPLY=($(compgen -W '{names} {' '.join(names_of(whole.options))}' -- \"$word\"))",
        '        return',
        '    fi',
        '    # bash takes `=` for a word',
        '    [[ $before == = ]] && before=${COMP_WORDS[COMP_CWORD - 2]}',
        '    [[ $word == = ]] && word=',
        '    case $before in',
        *(f"        {name}) COMPREPLY=($(compgen -W '{values}' -- \"$word\")); return ;;" for name, values in valued.items()),
        '    esac',
        '    case ${COMP_WORDS[first]} in',
        *cases,
        f"        help) ((COMP_CWORD == first + 1)) && COMPREPLY=($(compgen -W '{names}' -- \"$word\")); return ;;",
        '    esac',
        '    if [[ $word == -* ]]; then',
        '        COMPREPLY=($(compgen -W "$options" -- "$word"))',
        '    elif [[ $paths ]]; then',
        '        compopt -o filenames 2> /dev/null',
        '        mapfile -t COMPREPLY < <(compgen -f -- "$word")',
        '    fi',
        '}',
        'complete -F _pebbles pebbles',
        ''])


# ---- zsh

def in_zsh(text):
    return text.replace("'", "'\\''").replace('[', '(').replace(']', ')').replace(':', '\\:')


def zsh_option(it):
    values = f"({' '.join(it.values)})" if it.values else ' '
    takes = f':{it.takes}:{values}' if it.takes else ''
    return [f"'{name}[{in_zsh(it.purpose)}]{takes}'" for name in it.names]


def zsh_argument(place, it):
    return f"'{place}:{it.words.strip('<>')}:{'_files' if is_path(it) else ' '}'"


def zsh(whole, commands):
    def options(told):
        return ' '.join(word for it in told.options for word in zsh_option(it))

    def arguments(told):
        return ' '.join(zsh_argument(place, it) for place, it in enumerate(told.arguments, 1))

    cases = [f"        {name}) _arguments {options(told)} {arguments(told)} ;;" for name, told in commands.items()]
    return '\n'.join([
        '#compdef pebbles',
        'local -a commands',
        'commands=(',
        *(f"    '{it.words}:{in_zsh(it.meaning)}'" for it in whole.commands),
        ')',
        'local -i first=2',
        '[[ $words[2] == --explain ]] && ((CURRENT > 2)) && first=3',
        'if ((CURRENT == first)) && [[ $PREFIX == -* ]]; then',
        f"    _arguments {options(whole)}",
        'elif ((CURRENT == first)); then',
        "    _describe command commands",
        'else',
        '    shift first-1 words',
        '    ((CURRENT -= first - 1))',
        '    case $words[1] in',
        *cases,
        "        help) ((CURRENT == 2)) && _describe command commands ;;",
        '    esac',
        'fi',
        ''])


# ---- fish

def in_fish(text):
    return text.replace('\\', '\\\\').replace("'", "\\'")


def fish_option(condition, it):
    names = ' '.join(f'-l {name[2:]}' if name.startswith('--') else f'-s {name[1:]}' for name in it.names)
    takes = f" -x -a '{' '.join(it.values)}'" if it.takes else ''
    return f"complete -c pebbles -n '{condition}' {names}{takes} -d '{in_fish(it.purpose)}'"


def fish(whole, commands):
    lines = [f"complete -c pebbles -n __fish_use_subcommand -f -a {it.words} -d '{in_fish(it.meaning)}'" for it in whole.commands]
    lines += [fish_option('__fish_use_subcommand', it) for it in whole.options]
    lines += [f'complete -c pebbles -n \'__fish_seen_subcommand_from {name}\' -f' for name, told in commands.items() if not takes_paths(told)]
    lines += ["complete -c pebbles -n '__fish_seen_subcommand_from help; and test (commandline -opc)[-1] != help' -f",
              *(f"complete -c pebbles -n '__fish_seen_subcommand_from help; and test (commandline -opc)[-1] = help' -f -a {it.words}" for it in whole.commands)]
    lines += [fish_option(f'__fish_seen_subcommand_from {name}', it) for name, told in commands.items() for it in told.options]
    return '\n'.join(lines) + '\n'
