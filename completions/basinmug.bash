# Completions of basinmug for bash. Source this file, or put it into bash-completion's folder.
_basinmug() {
    local word=${COMP_WORDS[COMP_CWORD]} before=${COMP_WORDS[COMP_CWORD - 1]}
    # A '=' is a word of its own where bash breaks words at it.
    if [[ $word == = ]]; then
        word=
    elif [[ $before == = && $COMP_CWORD -ge 2 ]]; then
        before=${COMP_WORDS[COMP_CWORD - 2]}
    fi
    local options='--delimiter --no-header --escapes --width --priority --truncate --all-columns --style --rules --columns --align --color --max-rows --head --tail --expanded --help --version'
    case $before in
        --delimiter) options= ;;
        --escapes) options='colors all none' ;;
        --width) options= ;;
        --priority) options='max none min left right' ;;
        --style) options='rounded modern ascii extended markdown empty' ;;
        --rules) options='header all none' ;;
        --columns) options= ;;
        --align) options= ;;
        --color) options= ;;
        --max-rows) options= ;;
        --head) options= ;;
        --tail) options= ;;
        *)
            # An argument that belongs to no option names a file.
            if [[ $word != -* ]]; then
                mapfile -t COMPREPLY < <(compgen -f -- "$word")
                return
            fi
            ;;
    esac
    COMPREPLY=()
    local option
    for option in $options; do
        [[ $option == "$word"* ]] && COMPREPLY+=("$option")
    done
}
complete -o filenames -F _basinmug basinmug
