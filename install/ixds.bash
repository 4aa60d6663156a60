# Completion for bash of ixds, ixds-lines and ixds-view.

_ixds() {
    local word=${COMP_WORDS[COMP_CWORD]} before=${COMP_WORDS[COMP_CWORD - 1]} command=${COMP_WORDS[1]}
    COMPREPLY=()
    if [ "$COMP_CWORD" -eq 1 ]; then
        mapfile -t COMPREPLY < <(compgen -W 'extract check sample plain trace session' -- "$word")
        return
    fi
    case "$command" in
    extract | check | trace | session) ;;
    plain) [ "$COMP_CWORD" -eq 2 ] || return ;;
    *) return ;;
    esac
    case "$before" in
    --base)
        mapfile -t COMPREPLY < <(compgen -W 'http:// https://' -- "$word")
        compopt -o nospace
        return
        ;;
    --out)
        mapfile -t COMPREPLY < <(compgen -d -- "$word")
        compopt -o filenames
        return
        ;;
    esac
    case "$word" in
    -*)
        [ "$command" != plain ] || return
        local options='--base'
        [[ $command != @(extract|session) ]] || options='--base --out'
        mapfile -t COMPREPLY < <(compgen -W "$options" -- "$word")
        ;;
    *)
        local IFS=$'\n' extglob
        extglob=$(shopt -p extglob)
        shopt -s extglob
        if [ "$command" = session ]; then
            mapfile -t COMPREPLY < <(compgen -f -- "$word")
        else
            mapfile -t COMPREPLY < <(compgen -d -- "$word"; compgen -f -X '!*.@(html|htm|xhtml|xml)' -- "$word")
        fi
        $extglob
        compopt -o filenames
        ;;
    esac
}

_ixds_lines() {
    mapfile -t COMPREPLY < <(compgen -W '--caret' -- "${COMP_WORDS[COMP_CWORD]}")
}

# Its words are those of `ixds extract`, and the program that it runs.
_ixds_view() {
    local words=(ixds extract "${COMP_WORDS[@]:1}")
    if [ "${COMP_WORDS[COMP_CWORD - 1]}" = --ixds ]; then
        mapfile -t COMPREPLY < <(compgen -f -- "${COMP_WORDS[COMP_CWORD]}")
        compopt -o filenames
        return
    fi
    local COMP_WORDS=("${words[@]}") COMP_CWORD=$((COMP_CWORD + 1))
    _ixds
}

complete -F _ixds ixds
complete -F _ixds_lines ixds-lines
complete -F _ixds_view ixds-view
