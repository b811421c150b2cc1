# bash completion of the command `wat`, written by tools/pages.

_wat() {
    local word=${COMP_WORDS[COMP_CWORD]} before=${COMP_WORDS[COMP_CWORD - 1]} it
    local files=false
    # `--output=FILE` is three words
    if [[ $word == '=' ]]; then
        word=
    elif [[ $before == '=' ]]; then
        before=${COMP_WORDS[COMP_CWORD - 2]}
    fi
    for it in "${COMP_WORDS[@]:1:COMP_CWORD - 1}"; do
        [[ $it == -- ]] && files=true
    done
    compopt -o filenames 2> /dev/null
    if [[ $files == false ]]; then
        case $before in
            -o | --output)
                mapfile -t COMPREPLY < <(compgen -f -- "$word")
                return
                ;;
            --out-dir)
                mapfile -t COMPREPLY < <(compgen -d -- "$word")
                return
                ;;
            --color)
                mapfile -t COMPREPLY < <(compgen -W 'auto always never' -- "$word")
                return
                ;;
            --explain)
                mapfile -t COMPREPLY < <(compgen -W 'E1 E2 E3 E4 E5 E6 E7 E8 E9 E10 E11 E12 E13' -- "$word")
                return
                ;;
        esac
        if [[ $word == -* ]]; then
            mapfile -t COMPREPLY < <(compgen -W '-o --output --out-dir --hex --names --no-names --check --json --color --explain -h --help -V --version' -- "$word")
            return
        fi
    fi
    mapfile -t COMPREPLY < <(
        compgen -f -X '!*.wat' -- "$word"
        compgen -f -X '!*.wast' -- "$word"
        compgen -d -- "$word"
    )
}

complete -F _wat wat
