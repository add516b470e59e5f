# Bash completion of amihunk: commands, options and files. Source it, or put it in the directory of bash-completion.

_amihunk() {
    local word="${COMP_WORDS[COMP_CWORD]}" before="${COMP_WORDS[COMP_CWORD - 1]}" command="" has_ended="" index
    for ((index = 1; index < COMP_CWORD; index++)); do
        case "${COMP_WORDS[index]}" in
            --) has_ended=yes ;;
            -*) ;;
            *) command="${command:-${COMP_WORDS[index]}}" ;;
        esac
    done
    COMPREPLY=()
    if [ -n "$has_ended" ]; then
        # After `--` there are no options.
        mapfile -t COMPREPLY < <(compgen -f -- "$word")
        return
    fi

    case "$command $before" in
        'load --at' | 'image --at') return ;; # a list of addresses
        'link --out' | 'link -o' | 'link --map' | 'copy --out' | 'copy -o' | 'load --at-file' | 'image --at-file' | \
            'link --files-from' | 'survey --files-from')
            mapfile -t COMPREPLY < <(compgen -f -- "$word")
            return
            ;;
    esac

    local options
    case "$command" in
        '') options='-h --help -V --version' ;;
        link) options='-o --out --map -s --strip --short --trim --globals --explain --files-from --lines -h --help' ;;
        load | image) options='--at --at-file --srec --symbols --explain -h --help' ;;
        show) options='--json --content --html --names --explain -h --help' ;;
        check) options='--lint --explain -h --help' ;;
        survey) options='--json --digest --wait --files-from --lines -h --help' ;;
        copy) options='-o --out -s --strip --short --trim --normal --explain -h --help' ;;
        compare) options='--symbols -h --help' ;;
        *) return ;;
    esac
    case "$command $word" in
        *' -'*) mapfile -t COMPREPLY < <(compgen -W "$options" -- "$word") ;;
        ' '*) mapfile -t COMPREPLY < <(compgen -W 'link load image check show survey copy compare' -- "$word") ;;
        *) mapfile -t COMPREPLY < <(compgen -f -- "$word") ;;
    esac
}

complete -o filenames -F _amihunk amihunk
