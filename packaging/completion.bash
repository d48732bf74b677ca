# Completion of rjoin's command line for bash. Commands and options are those that the program's help lists.

_rjoin_commands() {
    "$1" --help | sed -n '/^Commands:$/,/^$/s/^  \([a-z]*\) .*/\1/p'
}

_rjoin() {
    local cur prev words cword
    _init_completion || return
    local program=$1 command=${words[1]} offered=
    case $prev in
    --relation)
        offered="intersects touches crosses within contains overlaps equals covers covered_by contains_properly"
        ;;
    --scale)
        offered="0 1 2 3 4 5 6"
        [[ " ${words[*]} " == *" --geometry any "* ]] && offered+=" 7 8 9 10 11 12 13 14 15"
        ;;
    --geometry) offered="box any" ;;
    --rings) offered="proper even-odd" ;;
    --edits | --skip) _filedir && return ;;
    --workers) offered="auto" ;;
    --delimiter | --left-delimiter | --right-delimiter) offered="tab" ;;
    --distance | --most | --batch | --cut | --columns | --left-columns | --right-columns) return ;;
    *)
        if [[ $cword -eq 1 && $cur == -* ]]; then
            offered=$(_parse_help "$program")
        elif [[ $cword -eq 1 || $command == help ]]; then
            offered=$(_rjoin_commands "$program")
        elif [[ $cur == -* ]]; then
            offered=$(_parse_help "$program" "$command --help")
        elif [[ $command != relate ]]; then
            _filedir && return
        fi
        ;;
    esac
    mapfile -t COMPREPLY < <(compgen -W "$offered" -- "$cur")
}

complete -F _rjoin rjoin
