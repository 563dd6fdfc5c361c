# Completes the words of aqs in bash. Made by tools/shell.py.
_aqs() {
    local word=${COMP_WORDS[COMP_CWORD]} before=${COMP_WORDS[COMP_CWORD-1]} options=
    COMPREPLY=()
    if ((COMP_CWORD == 1)); then
        COMPREPLY=($(compgen -W "replay audit explain summary draw run manual about" -- "$word"))
        return
    fi
    case ${COMP_WORDS[1]} in
        replay) options="--history --output" ;;
        audit) options="--json --output" ;;
        explain) options="--at --json --output" ;;
        summary) options="--json --output" ;;
        draw) options="--page --names --from --to --output" ;;
        run) options="--timeout --object --dir --unrecorded --output" ;;
        manual) COMPREPLY=($(compgen -W "replay audit explain summary draw run" -- "$word")); return ;;
        about) return ;;
    esac
    case $before in --at|--from|--object|--timeout|--to) return ;; esac
    case $word in
        -*) COMPREPLY=($(compgen -W "$options" -- "$word")) ;;
        *) mapfile -t COMPREPLY < <(compgen -f -- "$word") ;;
    esac
}
complete -o filenames -F _aqs aqs
