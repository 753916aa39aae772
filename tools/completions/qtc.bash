# Completes the words of qtc in bash: the forms, --workers and its numbers, job files.
# Load it by `. tools/completions/qtc.bash`; tools/install.sh puts it where bash-completion looks.
_qtc() {
    local current=${COMP_WORDS[COMP_CWORD]} files=0 line
    COMPREPLY=()
    case $COMP_CWORD:${COMP_WORDS[1]-}:${COMP_WORDS[2]-} in
    1:*)
        mapfile -t COMPREPLY < <(compgen -W 'run check' -- "$current")
        ;;
    2:run:*)
        if [[ $current == -* ]]; then
            mapfile -t COMPREPLY < <(compgen -W '--workers' -- "$current")
        else
            files=1
        fi
        ;;
    3:run:--workers)
        mapfile -t COMPREPLY < <(compgen -W "$(seq 1 32)" -- "$current")
        ;;
    4:run:--workers | 2:check:*)
        files=1
        ;;
    esac
    # Job files, and folders on the way to one.
    if ((files)); then
        while IFS= read -r line; do
            COMPREPLY+=("$line")
        done < <(compgen -f -X '!*.job' -- "$current"; compgen -d -- "$current")
        compopt -o filenames 2>/dev/null
        if ((COMP_CWORD == 2)) && [[ ${COMP_WORDS[1]} == run && -z $current ]]; then
            COMPREPLY+=(--workers)
        fi
    fi
    return 0
}
complete -F _qtc qtc ./qtc
# qtc-why takes a job file.
_qtc_why() {
    mapfile -t COMPREPLY < <(compgen -f -X '!*.job' -- "${COMP_WORDS[COMP_CWORD]}"; compgen -d -- "${COMP_WORDS[COMP_CWORD]}")
    compopt -o filenames 2>/dev/null
}
complete -F _qtc_why qtc-why
