"""Completions of famlint and famlint-check for bash and zsh, from the tables of famlint-check."""
from famlint_check.tables import COMMANDS, OPTIONS
from famlint_check.words import FORMATS

# The options of famlint that famlint-check has no use for, and those of famlint-check itself.
OF_RUN = ("steps", "inputs")
OWN = ("--model=", "--format=", "--baseline=", "--write-baseline=", "--help", "--version")


def values_of(option):
    """The values of an option, as words."""
    if isinstance(option.values[0], int):
        return [str(number) for number in range(option.values[0], option.values[1] + 1)]
    return list(option.values)


def cases(named):
    """The arms of a `case` over the word before the value."""
    return "\n".join(f"    --{name}) COMPREPLY=($(compgen -W '{' '.join(values)}' -- \"$value\")); return ;;" for name, values in named)


BASH = """\
# Completions of famlint and famlint-check for bash.
_famlint_values() {
    # bash splits a word at `=`
    local value=$cur name=$prev
    if [[ $cur == = ]]; then
        value=
    elif [[ $prev == = ]]; then
        name=${COMP_WORDS[COMP_CWORD - 2]}
    fi
    case $name in
%(cases)s
    --model | --baseline | --write-baseline) compopt -o filenames; COMPREPLY=($(compgen -f -- "$value")); return ;;
    esac
    return 1
}

_famlint() {
    local cur=${COMP_WORDS[COMP_CWORD]} prev=${COMP_WORDS[COMP_CWORD - 1]}
    COMPREPLY=()
    _famlint_values && return
    if [[ $cur == -* ]]; then
        compopt -o nospace
        COMPREPLY=($(compgen -W '%(options)s' -- "$cur"))
    elif [ "$COMP_CWORD" = 1 ]; then
        COMPREPLY=($(compgen -W '%(commands)s' -- "$cur"))
    else
        compopt -o filenames
        COMPREPLY=($(compgen -f -- "$cur"))
    fi
}

_famlint_check() {
    local cur=${COMP_WORDS[COMP_CWORD]} prev=${COMP_WORDS[COMP_CWORD - 1]}
    COMPREPLY=()
    _famlint_values && return
    if [[ $cur == -* ]]; then
        compopt -o nospace
        COMPREPLY=($(compgen -W '%(own)s' -- "$cur"))
    else
        compopt -o filenames
        COMPREPLY=($(compgen -f -- "$cur"))
    fi
}

complete -F _famlint famlint
complete -F _famlint_check famlint-check
"""

ZSH_FAMLINT = """\
#compdef famlint
_arguments -S \\
%(options)s
    '1:command:(%(commands)s)' \\
    '*:file:_files'
"""

ZSH_CHECK = """\
#compdef famlint-check
_arguments -S \\
    '--model=[the feature model]:model:_files' \\
    '--format=[how findings are shown]:format:(%(formats)s)' \\
    '--baseline=[alarms that are known]:baseline:_files' \\
    '--write-baseline=[writes what is known]:baseline:_files' \\
    '(- *)--help[all options]' \\
    '(- *)--version[the version]' \\
%(options)s
    '*:file:_files'
"""


def names():
    return " ".join(f"--{name}=" for name in (*(option.name for option in OPTIONS), *OF_RUN))


def for_bash():
    """One file for both programs."""
    named = [(option.name, values_of(option)) for option in OPTIONS] + [("format", FORMATS)]
    own = " ".join((*OWN, *(f"--{option.name}=" for option in OPTIONS)))
    return BASH % {"cases": cases(named), "options": names(), "own": own, "commands": " ".join(COMMANDS)}


def for_zsh():
    """A file for each program."""
    options = "\n".join(f"    '--{option.name}=:{option.name}:({' '.join(values_of(option))})' \\" for option in OPTIONS)
    of_run = "".join(f"\n    '--{name}=:{name}:' \\" for name in OF_RUN)
    return {
        "famlint": ZSH_FAMLINT % {"options": options + of_run, "commands": " ".join(COMMANDS)},
        "famlint-check": ZSH_CHECK % {"options": options, "formats": " ".join(FORMATS)},
    }
