# Completion of dwline for bash. It stands in PREFIX/share/bash-completion/completions/dwline.

_dwline() {
    local current=${COMP_WORDS[COMP_CWORD]}
    local before=${COMP_WORDS[COMP_CWORD - 1]}
    COMPREPLY=()
    if [ "$COMP_CWORD" = 1 ]; then
        mapfile -t COMPREPLY < <(compgen -W "addr index dump check find copy sources lines lint help -h --help -V --version" -- "$current")
        return
    fi
    case $before in
        --line-str | --str | -e | --exe | --comp-dir | --debug-dir | --for | --files-from | -o | --output)
            mapfile -t COMPREPLY < <(compgen -f -- "$current")
            return
            ;;
        --older | --address-size)
            mapfile -t COMPREPLY < <(compgen -W "1 2 4 8" -- "$current")
            return
            ;;
        --op | --base | -j | --section | --unit | --range | --rule | --no-rule)
            return
            ;;
    esac
    local options
    case ${COMP_WORDS[1]} in
        addr) options="-a --addresses -s --basenames --json --decimal --hex --base --all --stop -j --section -e --exe --older --address-size --version-5 --comp-dir --for --debug-dir --no-follow --verbose --big --line-str --str -h --help" ;;
        index) options="--all --keep-going -j --section --address-size --version-5 --comp-dir --debug-dir --no-follow --verbose --list -o --output -h --help" ;;
        dump) options="--keep-going --header --operations --paths --comp-dir --json --unit --range --older --address-size --version-5 --debug-dir --no-follow --verbose --big --line-str --str -h --help" ;;
        check) options="--keep-going --older --address-size --version-5 --debug-dir --no-follow --verbose --big --files-from -0 --null --progress -h --help" ;;
        copy) options="--to-5 --older --address-size --comp-dir --big -h --help" ;;
        find) options="--op -j --section --older --address-size --version-5 --debug-dir --no-follow --verbose --big --line-str --str -h --help" ;;
        sources) options="--rows --md5 --json --unit --all --keep-going --comp-dir --older --address-size --version-5 --debug-dir --no-follow --verbose --big --line-str --str -h --help" ;;
        lines) options="--exact --all --stop -j --section --older --address-size --version-5 --comp-dir --debug-dir --no-follow --verbose --big --line-str --str -h --help" ;;
        lint) options="--keep-going --rule --no-rule --json --older --address-size --version-5 --debug-dir --no-follow --verbose --big --line-str --str -h --help" ;;
        help)
            mapfile -t COMPREPLY < <(compgen -W "addr index dump check find copy sources lines lint help" -- "$current")
            return
            ;;
        *) return ;;
    esac
    case $current in
        -*) mapfile -t COMPREPLY < <(compgen -W "$options" -- "$current") ;;
        *) mapfile -t COMPREPLY < <(compgen -f -- "$current") ;;
    esac
}

complete -o filenames -F _dwline dwline
