"""The completions of bash, zsh and fish, for tools/manual.py. None of them takes from cargo's own what isn't `cargo hack`.

A name between at signs in a script below stands for what is made of the table of options.
"""

# What is offered where cargo lists none.
SUBCOMMANDS = ["build", "check", "run", "test"]

BASH = """\
# Completions of `cargo hack` for bash, written by tools/manual.py.
# bash-completion loads it. Without that, or where that finds another file for cargo first, source this one in ~/.bashrc.

# The subcommands of cargo: also its aliases, and those that are installed.
_cargo_hack_subcommands() {
    local listed
    listed=$(cargo --list 2> /dev/null | awk 'NR > 1 { print $1 }')
    echo "${listed:-@SUBCOMMANDS@}"
}

# Completes a call whose arguments begin at word $1.
_cargo_hack_arguments() {
    local with_value=' @WITH_VALUE@ '
    local words=() it word option= subcommand= glued= offered
    # `--color=never` comes as three words where `=` is among the word breaks. Here it is one.
    for it in "${COMP_WORDS[@]:$1:COMP_CWORD-$1+1}"; do
        if ((${#words[@]})) && [[ ${words[-1]} == --* && ($it == = || ${words[-1]} == *=) ]]; then
            words[-1]+=$it
        else
            words+=("$it")
        fi
    done
    word=${words[-1]}
    unset 'words[-1]'

    # The option that wants this word as its value, and the subcommand.
    for it in "${words[@]}"; do
        if [[ $option ]]; then
            option=
        elif [[ $it == -- ]]; then
            compopt -o default
            return
        elif [[ $with_value == *" $it "* ]]; then
            option=$it
        elif [[ $it != -* ]]; then
            subcommand=$it
        fi
    done
    if [[ ! $option && $word == --*=* ]]; then
        option=${word%%=*} word=${word#*=}
        [[ $COMP_WORDBREAKS == *=* ]] || glued=$option=
    fi

    case $option in
        '')
            offered="@OPTIONS@"
            [[ $subcommand || $word == -* ]] || offered+=" $(_cargo_hack_subcommands)"
            mapfile -t COMPREPLY < <(compgen -W "$offered" -- "$word") ;;
        @PATHS@)
            compopt -o filenames
            mapfile -t COMPREPLY < <(compgen -f -- "$word")
            # Behind `--manifest-path=` in the same word bash doesn't see that it is a folder.
            [[ ! $glued ]] || for it in "${!COMPREPLY[@]}"; do
                [[ -d ${COMPREPLY[it]} ]] && COMPREPLY[it]+=/ && compopt -o nospace
                COMPREPLY[it]=$glued${COMPREPLY[it]}
            done ;;
@VALUES@
    esac
}

_cargo_hack_program() {
    local at=1
    ((COMP_CWORD > 1)) && [[ ${COMP_WORDS[1]} == hack ]] && at=2
    _cargo_hack_arguments $at
}
complete -F _cargo_hack_program cargo-hack

# Keeps what completes `cargo` now, and puts `_cargo_with_hack` before it.
_cargo_hack_register() {
    local now at
    read -ra now <<< "$(complete -p cargo 2> /dev/null)"
    if [[ " ${now[*]} " =~ ' -F '([^ ]+) && ${BASH_REMATCH[1]} != @(_cargo_with_hack|*_minimal) ]]; then
        _cargo_hack_own=${BASH_REMATCH[1]} _cargo_hack_own_options=()
        for at in "${!now[@]}"; do
            [[ ${now[at]} == -o ]] && _cargo_hack_own_options+=("${now[at+1]}")
        done
    fi
    complete -F _cargo_with_hack cargo
}

# Reads the completions of cargo: the first file of that name which isn't this one, or that of the toolchain. It needs
# functions of bash-completion.
_cargo_hack_load_own() {
    local folders file
    declare -F _get_comp_words_by_ref > /dev/null || return
    IFS=: read -ra folders <<< "${XDG_DATA_HOME:-$HOME/.local/share}:${XDG_DATA_DIRS:-/usr/local/share:/usr/share}"
    folders=("${folders[@]/%//bash-completion}")
    for file in "$BASH_COMPLETION_USER_DIR/completions/cargo" "${folders[@]/%//completions/cargo}" \\
        "$(rustc --print sysroot 2> /dev/null)/etc/bash_completion.d/cargo"; do
        if [[ -f $file && ! $file -ef $_cargo_hack_file ]]; then
            source "$file"
            _cargo_hack_register
            return
        fi
    done
}

# `cargo hack` and `cargo +nightly hack`. All else is for the completions of cargo.
_cargo_with_hack() {
    local at=1 it
    [[ ${COMP_WORDS[1]} == +* ]] && at=2
    if [[ ${COMP_WORDS[at]} == hack && COMP_CWORD -gt at ]]; then
        _cargo_hack_arguments $((at + 1))
        return
    fi
    if [[ ! $_cargo_hack_own && ! $_cargo_hack_sought ]]; then
        _cargo_hack_sought=yes
        _cargo_hack_load_own
    fi
    if [[ $_cargo_hack_own ]]; then
        for it in "${_cargo_hack_own_options[@]}"; do
            compopt -o "$it"
        done
        "$_cargo_hack_own" "$@"
    elif ((COMP_CWORD == at)); then
        mapfile -t COMPREPLY < <(compgen -W "$(_cargo_hack_subcommands)" -- "${COMP_WORDS[COMP_CWORD]}")
    else
        compopt -o default
    fi
}
_cargo_hack_file=${BASH_SOURCE[0]}
_cargo_hack_register
"""

ZSH = """\
#compdef cargo-hack -p cargo
# Completions of `cargo hack` for zsh, written by tools/manual.py. They belong into a folder of fpath.
# As a pattern (-p), they are asked for `cargo` before cargo's own, whichever file is found first, and take just `hack`.

# The subcommands of cargo: also its aliases, and those that are installed.
_cargo_hack_subcommands() {
    local -a found
    found=(${${${(M)${(f)"$(_call_program commands cargo --list 2> /dev/null)"}:#    *}/ ##/}/ ##/:})
    (($#found)) || found=(@SUBCOMMANDS@)
    _describe -t commands subcommand found
}

# The word before the arguments.
local at=1
case ${words[1]:t} in
    cargo)
        at=2
        [[ $words[2] == +* ]] && at=3
        [[ $words[at] == hack ]] && ((CURRENT > at)) || return 1
        _compskip=all ;;
    cargo-hack)
        [[ $words[2] == hack ]] && ((CURRENT > 2)) && at=2 ;;
esac
shift $((at - 1)) words
((CURRENT -= at - 1))

_arguments -S \\
@OPTIONS@ \\
    '1:subcommand:_cargo_hack_subcommands' \\
    '*:arguments of cargo:_files'
"""

FISH = """\
# Completions of `cargo hack` for fish, written by tools/manual.py.
# They belong into a folder conf.d: fish loads the completions of cargo beside them, but would not load these for `cargo`.

# The arguments before the cursor, one a line. It fails where the call isn't one of `cargo hack`.
function __cargo_hack_arguments
    set -l words (commandline -opc)
    set -l program (string replace -r '.*/' '' -- $words[1])
    set -e words[1]
    if test "$program" = cargo
        string match -q -- '+*' $words[1]; and set -e words[1]
        test "$words[1]" = hack; or return 1
    end
    test "$words[1]" = hack; and set -e words[1]
    string join \\n -- $words
    return 0
end

# Whether the subcommand is still to come. The value of an option isn't one.
function __cargo_hack_wants_subcommand
    set -l words (__cargo_hack_arguments); or return 1
    set -l is_value 0
    for it in $words
        if test $is_value = 1
            set is_value 0
        else if contains -- $it @WITH_VALUE@
            set is_value 1
        else if not string match -q -- '-*' $it
            return 1
        end
    end
    test $is_value = 0
end

# The subcommands of cargo: also its aliases, and those that are installed.
function __cargo_hack_subcommands
    set -l found (cargo --list 2> /dev/null | string replace -rf '^ +(\\S+) *(.*)' '$1\\t$2')
    test -n "$found"; or set found @SUBCOMMANDS@
    string join \\n -- $found
end

complete -c cargo -c cargo-hack -n __cargo_hack_wants_subcommand -f -a '(__cargo_hack_subcommands)'
@OPTIONS@
"""


def filled(script, **parts):
    """A script with its parts in their places."""
    for name, text in parts.items():
        script = script.replace(f"@{name}@", text)
    return script


def with_value(options):
    """The names of the options that take the next word."""
    return " ".join(name for it in options if it.takes_value for name in it.names)


def bash(options):
    cases = [
        f"        {it.long}) mapfile -t COMPREPLY < <(compgen -P \"$glued\" -W '{' '.join(it.values)}' -- \"$word\") ;;"
        for it in options
        if it.values
    ]
    return filled(
        BASH,
        SUBCOMMANDS=" ".join(SUBCOMMANDS),
        WITH_VALUE=with_value(options),
        OPTIONS=" ".join([*(it.letter for it in options if it.letter), *(it.completed for it in options)]),
        PATHS="|".join(it.long for it in options if it.is_path),
        VALUES="\n".join(cases),
    )


def zsh_mark(name, option):
    """How `_arguments` is told where the value of an option stands."""
    if option.completed != option.long:
        return "=-"  # Just behind `=`.
    if not option.takes_value:
        return ""
    return "+" if name == option.letter else "="  # There, or in the next word.


def zsh_option(name, option):
    """An option as `_arguments` takes it."""
    text = option.text.replace("'", "'\\''").replace("[", "\\[").replace("]", "\\]").replace(":", "\\:")
    mark = zsh_mark(name, option)
    # A space offers nothing.
    value = f"({' '.join(option.values)})" if option.values else "_files" if option.is_path else " "
    return f"    '*{name}{mark}[{text}]{f':value:{value}' if mark else ''}'"


def zsh(options):
    lines = [zsh_option(name, it) for it in options for name in it.names]
    return filled(ZSH, SUBCOMMANDS=" ".join(SUBCOMMANDS), OPTIONS=" \\\n".join(lines))


def fish_option(option):
    text = option.text.replace("\\", "\\\\").replace("'", "\\'")
    letter = f" -s {option.letter[1:]}" if option.letter else ""
    value = " -r -F" if option.is_path else " -x" if option.takes_value else ""
    if option.takes_value and option.values:
        value += f" -a '{' '.join(option.values)}'"
    return f"complete -c cargo -c cargo-hack -n __cargo_hack_arguments{letter} -l {option.completed[2:]}{value} -d '{text}'"


def fish(options):
    return filled(
        FISH,
        SUBCOMMANDS=" ".join(SUBCOMMANDS),
        WITH_VALUE=with_value(options),
        OPTIONS="\n".join(map(fish_option, options)),
    )
