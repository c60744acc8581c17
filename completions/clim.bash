# Completions of clim for bash.

# Each column as TABLE.COLUMN, from the help of `show`. A long list of columns has a second line.
_clim_columns() {
    clim show --help 2>/dev/null | awk '
        /^  [0-9A-F][0-9A-F] [A-Za-z]+: / { table = substr($2, 1, length($2) - 1); for (i = 3; i <= NF; i++) print table "." $i }
        /^     [A-Z]/ { for (i = 1; i <= NF; i++) print table "." $i }'
}

_clim() {
    local word=${COMP_WORDS[COMP_CWORD]}
    local subcommands='root info check show types outline refs resources strings token where rewrite embed digest compare explain help'
    local line given files=0
    COMPREPLY=()
    if [ "$COMP_CWORD" -eq 1 ]; then
        while read -r line; do COMPREPLY+=("$line"); done < <(compgen -W "$subcommands --help --version" -- "$word")
        return
    fi
    case ${COMP_WORDS[1]} in
        help)
            while read -r line; do COMPREPLY+=("$line"); done < <(compgen -W "$subcommands" -- "$word")
            ;;
        explain)
            # Each line begins with the number of a fault and its name.
            while read -r line; do COMPREPLY+=("$line"); done < <(compgen -W "$(clim explain 2>/dev/null | cut -d : -f 1) --json --help" -- "$word")
            ;;
        *)
            local flags='--bare --help'
            if [ "${COMP_WORDS[1]}" = embed ]; then flags='--help --json --root --unsigned'; fi
            if [ "${COMP_WORDS[1]}" = resources ]; then flags='--help --extract'; fi
            case ${COMP_WORDS[1]} in
                root | info | check | show | types | outline | refs | resources | strings | where | digest)
                    flags="$flags --files-from -0 --recursive"
                    ;;
            esac
            if [ "${COMP_WORDS[1]}" = check ]; then flags="$flags --quiet --where"; fi
            case ${COMP_WORDS[1]} in root | embed) ;; *) flags="$flags --budget" ;; esac
            case ${COMP_WORDS[1]} in root | info | check | show | types | outline | refs | resources | strings | token | where | digest | compare) flags="$flags --json" ;; esac
            if [ "${COMP_WORDS[1]}" = show ]; then flags="$flags --names --until-fault"; fi
            if [ "${COMP_WORDS[1]}" = root ]; then flags="$flags --until-fault"; fi
            if [ "${COMP_WORDS[1]}" = outline ]; then flags="$flags --no-tokens --public --sorted"; fi
            if [ "${COMP_WORDS[1]}" = compare ]; then flags="$flags --quiet --ignore"; fi
            # The budget is a number, and a column a name.
            case ${COMP_WORDS[COMP_CWORD-1]} in
                --files-from)
                    while read -r line; do COMPREPLY+=("$line"); done < <(compgen -f -W - -- "$word")
                    return
                    ;;
                --budget | --extract) return ;;
                --ignore)
                    while read -r line; do COMPREPLY+=("$line"); done < <(compgen -W "$(_clim_columns)" -- "$word")
                    return
                    ;;
            esac
            for given in "${COMP_WORDS[@]:2:COMP_CWORD-2}"; do
                [[ $given == -* ]] || files=$((files + 1))
            done
            if [[ $word == -* ]]; then
                while read -r line; do COMPREPLY+=("$line"); done < <(compgen -W "$flags" -- "$word")
            elif [[ $files -gt 0 && ${COMP_WORDS[1]} = token ]]; then
                return
            elif [[ $files -gt 0 && ${COMP_WORDS[1]} = show ]]; then
                while read -r line; do COMPREPLY+=("$line"); done < <(compgen -f -W "$(_clim_columns | cut -d . -f 1 | uniq)" -- "$word")
            else
                while read -r line; do COMPREPLY+=("$line"); done < <(compgen -f -- "$word")
            fi
            ;;
    esac
}

complete -o filenames -F _clim clim
