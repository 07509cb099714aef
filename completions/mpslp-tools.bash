# Completion of mpslp-tools for bash. Made by python/pages.py.
_mpslp_tools() {
    local word=${COMP_WORDS[COMP_CWORD]} previous=${COMP_WORDS[COMP_CWORD - 1]} command=${COMP_WORDS[1]} options=
    COMPREPLY=()
    if ((COMP_CWORD == 1)); then
        mapfile -t COMPREPLY < <(compgen -W 'canon fmt check same diff merge setup-git show digest explain adapt survey report --help --version' -- "$word")
        return
    fi
    case $previous in
        -f | --format)
            mapfile -t COMPREPLY < <(compgen -W 'mps lp' -- "$word")
            return
            ;;
        -t | --to)
            mapfile -t COMPREPLY < <(compgen -W 'mps lp glp' -- "$word")
            return
            ;;
        --for)
            mapfile -t COMPREPLY < <(compgen -W 'glpsol clp cbc lp_solve esolver highs scip portable' -- "$word")
            return
            ;;
        --target)
            mapfile -t COMPREPLY < <(compgen -W 'glpsol clp cbc lp_solve esolver coinutils highs scip' -- "$word")
            return
            ;;
        --ignore)
            mapfile -t COMPREPLY < <(compgen -W 'sense-in-comment objsense no-name no-rhs-section further-n-row empty-markers short-fields marked-without-bound marked-with-lower-bound objective-rhs range-on-equation upper-zero large-limit text-after-end name-like-arithmetic number-not-held coefficient-size semi-continuous-bound near-whole-bound constant-in-comment objective-constant ranged-row row-after-side joined-tokens spaced-side integer-section short-keyword several-signs fixed-bound name-in-dialects' -- "$word")
            return
            ;;
        --from)
            mapfile -t COMPREPLY < <(compgen -W 'coinutils glpsol lp_solve pulp qsopt none' -- "$word")
            return
            ;;
        --out-dir)
            mapfile -t COMPREPLY < <(compgen -d -- "$word")
            return
            ;;
        --digits | --git-path | --jobs | --marker-size | --strict | -j)
            return
            ;;
    esac
    case $command in
        canon) options='--format --output --out-dir --in-place --diff --to --for --rename --map --names-back --git-path --force --jobs --quiet --no-warnings --help -Werror' ;;
        fmt) options='--format --output --in-place --check --diff --jobs --json --quiet --help' ;;
        check) options='--format --portable --target --all --ignore --jobs --json --quiet --no-warnings --help -Werror' ;;
        same) options='--format --any-names --map --json --quiet --no-warnings --help -Werror' ;;
        diff) options='--format --ignore-objective-name --all --digits --by-position --any-names --json --quiet --no-warnings --help -Werror' ;;
        merge) options='--format --output --canonical --git-path --marker-size --json --quiet --help' ;;
        setup-git) options='--global --quiet --help' ;;
        show) options='--format --quiet --help' ;;
        digest) options='--format --any-names --jobs --json --quiet --help' ;;
        explain) options='--format --help' ;;
        adapt) options='--format --output --out-dir --in-place --diff --dry-run --from --summary --strict --map --names-back --jobs --json --quiet --help' ;;
        survey) options='--format --json --csv --from --jobs --quiet --help' ;;
        report) options='--format --output --out-dir --json --digits --by-position --jobs --quiet --help' ;;
    esac
    case $command:$word in
        *:-*)
            mapfile -t COMPREPLY < <(compgen -W "$options" -- "$word")
            ;;
        explain:*)
            mapfile -t COMPREPLY < <(compgen -W "$("${COMP_WORDS[0]}" explain 2> /dev/null)" -- "$word")
            ;;
        *)
            compopt -o filenames
            mapfile -t COMPREPLY < <(compgen -f -- "$word")
            ;;
    esac
}
complete -F _mpslp_tools mpslp-tools
