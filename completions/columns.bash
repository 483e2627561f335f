# Completions of columns for bash. Source this file, or put it into bash-completion's folder.
_columns() {
    local word=${COMP_WORDS[COMP_CWORD]} before=${COMP_WORDS[COMP_CWORD - 1]}
    # A '=' is a word of its own where bash breaks words at it.
    if [[ $word == = ]]; then
        word=
    elif [[ $before == = && $COMP_CWORD -ge 2 ]]; then
        before=${COMP_WORDS[COMP_CWORD - 2]}
    fi
    # After a '<' is the file to read.
    if [[ $before == '<' ]]; then
        compopt -o filenames 2> /dev/null
        mapfile -t COMPREPLY < <(compgen -f -- "$word")
        return
    fi
    local options='--width --truncate --keep-words --priority --style --streamed --color --help --version'
    case $before in
        --width) options= ;;
        --priority) options='none min max left right' ;;
        --style) options='ascii modern extended empty' ;;
        --color) options= ;;
    esac
    COMPREPLY=()
    local option
    for option in $options; do
        [[ $option == "$word"* ]] && COMPREPLY+=("$option")
    done
}
complete -F _columns columns
