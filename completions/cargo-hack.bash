# Completions of `cargo hack` for bash, written by tools/manual.py.
# bash-completion loads it. Without that, or where that finds another file for cargo first, source this one in ~/.bashrc.

# The subcommands of cargo: also its aliases, and those that are installed.
_cargo_hack_subcommands() {
    local listed
    listed=$(cargo --list 2> /dev/null | awk 'NR > 1 { print $1 }')
    echo "${listed:-build check run test}"
}

# Completes a call whose arguments begin at word $1.
_cargo_hack_arguments() {
    local with_value=' -p --package --exclude --manifest-path -F --features --skip --exclude-features --depth --group-features --target --mutually-exclusive-features --allow-together --at-least-one-of --include-features --version-range --version-step --partition --partition-kind --log-group --color --strength --parallel --most-runs '
    local words=() it word option= subcommand= glued= offered
    # `--color=never` comes as three words where `=` is among the word breaks. Here it is one.
    for it in "${COMP_WORDS[@]:$1:COMP_CWORD-$1+1}"; do
        if ((${#words[@]})) && [[ ${words[-1]} == --* && ($it == = || ${words[-1]} == *=) ]]; then
            words[-1]+=$it
        else
            words+=("$it")
        fi
    done
    word=${words[-1]}
    unset 'words[-1]'

    # The option that wants this word as its value, and the subcommand.
    for it in "${words[@]}"; do
        if [[ $option ]]; then
            option=
        elif [[ $it == -- ]]; then
            compopt -o default
            return
        elif [[ $with_value == *" $it "* ]]; then
            option=$it
        elif [[ $it != -* ]]; then
            subcommand=$it
        fi
    done
    if [[ ! $option && $word == --*=* ]]; then
        option=${word%%=*} word=${word#*=}
        [[ $COMP_WORDBREAKS == *=* ]] || glued=$option=
    fi

    case $option in
        '')
            offered="-p -F -v -h -V --package --all --workspace --exclude --manifest-path --locked --features --each-feature --feature-powerset --optional-deps --skip --exclude-features --exclude-no-default-features --exclude-all-features --depth --group-features --target --mutually-exclusive-features --allow-together --at-least-one-of --include-features --no-dev-deps --remove-dev-deps --no-private --ignore-private --ignore-unknown-features --rust-version --version-range --version-step --clean-per-run --clean-per-version --keep-going --partition --partition-kind --log-group --workspace-behavior=cargo --print-command-list --no-manifest-path --verbose --color --help --version --no-default-features --all-features --include-deps-features --strength --restore --package-rules --parallel --find-rust-version --find-conflicts --most-runs"
            [[ $subcommand || $word == -* ]] || offered+=" $(_cargo_hack_subcommands)"
            mapfile -t COMPREPLY < <(compgen -W "$offered" -- "$word") ;;
        --manifest-path)
            compopt -o filenames
            mapfile -t COMPREPLY < <(compgen -f -- "$word")
            # Behind `--manifest-path=` in the same word bash doesn't see that it is a folder.
            [[ ! $glued ]] || for it in "${!COMPREPLY[@]}"; do
                [[ -d ${COMPREPLY[it]} ]] && COMPREPLY[it]+=/ && compopt -o nospace
                COMPREPLY[it]=$glued${COMPREPLY[it]}
            done ;;
        --partition-kind) mapfile -t COMPREPLY < <(compgen -P "$glued" -W 'block turn' -- "$word") ;;
        --log-group) mapfile -t COMPREPLY < <(compgen -P "$glued" -W 'none github-actions' -- "$word") ;;
        --workspace-behavior) mapfile -t COMPREPLY < <(compgen -P "$glued" -W 'cargo' -- "$word") ;;
        --color) mapfile -t COMPREPLY < <(compgen -P "$glued" -W 'auto always never' -- "$word") ;;
    esac
}

_cargo_hack_program() {
    local at=1
    ((COMP_CWORD > 1)) && [[ ${COMP_WORDS[1]} == hack ]] && at=2
    _cargo_hack_arguments $at
}
complete -F _cargo_hack_program cargo-hack

# Keeps what completes `cargo` now, and puts `_cargo_with_hack` before it.
_cargo_hack_register() {
    local now at
    read -ra now <<< "$(complete -p cargo 2> /dev/null)"
    if [[ " ${now[*]} " =~ ' -F '([^ ]+) && ${BASH_REMATCH[1]} != @(_cargo_with_hack|*_minimal) ]]; then
        _cargo_hack_own=${BASH_REMATCH[1]} _cargo_hack_own_options=()
        for at in "${!now[@]}"; do
            [[ ${now[at]} == -o ]] && _cargo_hack_own_options+=("${now[at+1]}")
        done
    fi
    complete -F _cargo_with_hack cargo
}

# Reads the completions of cargo: the first file of that name which isn't this one, or that of the toolchain. It needs
# functions of bash-completion.
_cargo_hack_load_own() {
    local folders file
    declare -F _get_comp_words_by_ref > /dev/null || return
    IFS=: read -ra folders <<< "${XDG_DATA_HOME:-$HOME/.local/share}:${XDG_DATA_DIRS:-/usr/local/share:/usr/share}"
    folders=("${folders[@]/%//bash-completion}")
    for file in "$BASH_COMPLETION_USER_DIR/completions/cargo" "${folders[@]/%//completions/cargo}" \
        "$(rustc --print sysroot 2> /dev/null)/etc/bash_completion.d/cargo"; do
        if [[ -f $file && ! $file -ef $_cargo_hack_file ]]; then
            source "$file"
            _cargo_hack_register
            return
        fi
    done
}

# `cargo hack` and `cargo +nightly hack`. All else is for the completions of cargo.
_cargo_with_hack() {
    local at=1 it
    [[ ${COMP_WORDS[1]} == +* ]] && at=2
    if [[ ${COMP_WORDS[at]} == hack && COMP_CWORD -gt at ]]; then
        _cargo_hack_arguments $((at + 1))
        return
    fi
    if [[ ! $_cargo_hack_own && ! $_cargo_hack_sought ]]; then
        _cargo_hack_sought=yes
        _cargo_hack_load_own
    fi
    if [[ $_cargo_hack_own ]]; then
        for it in "${_cargo_hack_own_options[@]}"; do
            compopt -o "$it"
        done
        "$_cargo_hack_own" "$@"
    elif ((COMP_CWORD == at)); then
        mapfile -t COMPREPLY < <(compgen -W "$(_cargo_hack_subcommands)" -- "${COMP_WORDS[COMP_CWORD]}")
    else
        compopt -o default
    fi
}
_cargo_hack_file=${BASH_SOURCE[0]}
_cargo_hack_register
