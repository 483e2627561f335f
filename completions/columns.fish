# Completions of columns for fish. Put this file into ~/.config/fish/completions.
complete -c columns -f
complete -c columns -l width -x -d 'Narrow the table to so many columns'
complete -c columns -l truncate -d 'With --width: cut off what does not fit'
complete -c columns -l keep-words -d 'With --width: wrap lines between words'
complete -c columns -l priority -x -a 'none min max left right' -d 'With --width: which column gives first'
complete -c columns -l style -x -a 'ascii modern extended empty' -d 'The lines of the table'
complete -c columns -l streamed -d 'Print a streamed table'
complete -c columns -l color -x -d 'Colour columns: COLUMN=NAME, separated by commas'
complete -c columns -s h -l help -d 'Print help'
complete -c columns -s V -l version -d 'Print the version'
