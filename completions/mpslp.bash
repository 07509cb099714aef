# Completion of mpslp for bash.

# Offers the files of a format, and directories; all files if there are none.
_mpslp_files() {
    local pattern='*'
    case $1 in
        mps) pattern='*.[mM][pP][sS]' ;;
        lp) pattern='*.[lL][pP]' ;;
    esac
    compopt -o filenames
    mapfile -t COMPREPLY < <(compgen -f -X "!$pattern" -- "$2")
    if ((${#COMPREPLY[@]})); then
        mapfile -t -O ${#COMPREPLY[@]} COMPREPLY < <(compgen -d -- "$2")
    else
        mapfile -t COMPREPLY < <(compgen -f -- "$2")
    fi
}

_mpslp() {
    local word=${COMP_WORDS[COMP_CWORD]} command=${COMP_WORDS[1]} i
    local -a words=("${COMP_WORDS[@]:0:COMP_CWORD}")
    local formats='mps lp' commands='canon same show' option=--help
    COMPREPLY=()
    if ((COMP_CWORD == 1)); then
        mapfile -t COMPREPLY < <(compgen -W "$commands help --help --version" -- "$word")
        return
    fi
    # After `--` no word is an option, and it is none of the arguments itself.
    for ((i = 2; i < COMP_CWORD; i++)); do
        if [[ ${words[i]} == -- ]]; then
            words=("${words[@]:0:i}" "${words[@]:i+1}")
            option=
            break
        fi
    done
    case $command:${#words[@]}:$word in
        canon:2:-* | same:2:-* | show:2:-*)
            mapfile -t COMPREPLY < <(compgen -W "$option" -- "$word")
            ;;
        canon:[23]:* | same:[24]:* | show:2:*)
            mapfile -t COMPREPLY < <(compgen -W "$formats" -- "$word")
            ;;
        canon:4:* | same:3:* | show:3:*)
            _mpslp_files "${words[2]}" "$word"
            ;;
        same:5:*)
            _mpslp_files "${words[4]}" "$word"
            ;;
        help:2:*)
            mapfile -t COMPREPLY < <(compgen -W "$commands" -- "$word")
            ;;
    esac
}
complete -F _mpslp mpslp
