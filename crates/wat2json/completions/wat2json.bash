# bash completion of the command `wat2json`, written by tools/pages.

_wat2json() {
    local word=${COMP_WORDS[COMP_CWORD]} before=${COMP_WORDS[COMP_CWORD - 1]} it
    local files=false
    # `--output=FILE` is three words
    if [[ $word == '=' ]]; then
        word=
    elif [[ $before == '=' ]]; then
        before=${COMP_WORDS[COMP_CWORD - 2]}
    fi
    for it in "${COMP_WORDS[@]:1:COMP_CWORD - 1}"; do
        [[ $it == -- ]] && files=true
    done
    compopt -o filenames 2> /dev/null
    if [[ $files == false ]]; then
        case $before in
            -o | --output)
                mapfile -t COMPREPLY < <(compgen -f -- "$word")
                return
                ;;
            --out-dir)
                mapfile -t COMPREPLY < <(compgen -d -- "$word")
                return
                ;;
        esac
        if [[ $word == -* ]]; then
            mapfile -t COMPREPLY < <(compgen -W '-o --output --out-dir --skip -h --help -V --version' -- "$word")
            return
        fi
    fi
    mapfile -t COMPREPLY < <(
        compgen -f -X '!*.wast' -- "$word"
        compgen -d -- "$word"
    )
}

complete -F _wat2json wat2json
