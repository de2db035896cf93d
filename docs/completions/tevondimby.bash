# Completions of tevondimby for bash: source this file, or copy it to ~/.local/share/bash-completion/completions/tevondimby
_tevondimby() {
    local word=${COMP_WORDS[COMP_CWORD]} command=${COMP_WORDS[1]}
    if [ "$COMP_CWORD" -eq 1 ]; then
        COMPREPLY=($(compgen -W "check tokens tree search rename replace rewrite serve lsp help --help --version" -- "$word"))
        return
    fi
    case ${COMP_WORDS[COMP_CWORD-1]} in
        --edition) COMPREPLY=($(compgen -W "2015 2018 2021 2024 next" -- "$word")); return ;;
        --comments) COMPREPLY=($(compgen -W "refuse before drop" -- "$word")); return ;;
        --as) COMPREPLY=($(compgen -W "expression type pattern statement item" -- "$word")); return ;;
        --grammar) COMPREPLY=($(compgen -W "whole profile" -- "$word")); return ;;
    esac
    local options="--help"
    case $command in
        check|tokens|tree) options="--json --exclude --edition --grammar --help" ;;
        search) options="--as --json --exclude --edition --grammar --help" ;;
        rename) options="--write --diff --check --json --quiet --merge --pairs --exclude --edition --grammar --help" ;;
        replace) options="--write --diff --check --json --quiet --as --comments --skip --allow-messages --exclude --edition --grammar --help" ;;
        lsp) options="--edition --help" ;;
        rewrite) options="--write --diff --check --json --quiet --allow-messages --edition --grammar --help" ;;
    esac
    case $word in
        -*) COMPREPLY=($(compgen -W "$options" -- "$word")) ;;
        *) COMPREPLY=($(compgen -f -- "$word")) ;;
    esac
}
complete -o filenames -F _tevondimby tevondimby
