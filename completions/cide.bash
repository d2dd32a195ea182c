# Completion of cide's words in bash: source this file, or put it where bash-completion looks, as
# ~/.local/share/bash-completion/completions/cide.

# the features that a project's text names in one line
_cide_features() {
    sed -n 's/^[[:space:]]*features[[:space:]]\{1,\}\([^;]*\);.*/\1/p' "$1" 2>/dev/null | tr -d ' \t' | tr , '\n'
}

# the names behind the last comma
_cide_names() {
    local given=""
    case $2 in *,*) given=${2%,*}, ;; esac
    mapfile -t COMPREPLY < <(compgen -P "$given" -W "$([ "$given" ] || echo .; _cide_features "$1")" -- "${2##*,}")
    compopt -o nospace 2>/dev/null
}

# files of any name
_cide_files() {
    compopt -o filenames 2>/dev/null
    mapfile -t COMPREPLY < <(compgen -f -- "$1")
}

_cide() {
    local word=${COMP_WORDS[COMP_CWORD]}
    COMPREPLY=()
    if [ "$COMP_CWORD" = 1 ]; then
        mapfile -t COMPREPLY < <(compgen -W "check export" -- "$word")
        return
    fi
    case ${COMP_WORDS[1]},${COMP_WORDS[COMP_CWORD - 1]},$word in
        check,--budget,*) ;;
        check,*,-*) mapfile -t COMPREPLY < <(compgen -W "--budget --migrate" -- "$word") ;;
        check,*,* | export,export,*) _cide_files "$word" ;;
        export,*,*) if [ "$COMP_CWORD" = 3 ]; then _cide_names "${COMP_WORDS[2]}" "$word"; fi ;;
    esac
}

complete -F _cide cide
