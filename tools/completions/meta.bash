# Completes the words of meta in bash: `source tools/completions/meta.bash` in ~/.bashrc. What there is to complete comes
# from `meta --help`, so a new command needs nothing here.

# The lines of `meta --help` that hold words, from the first to the end of the second block.
_meta_lines() {
    "$1" --help 2>/dev/null | awk '/^  / { print } /^$/ && ++blocks == 3 { exit }'
}

# The words of the usage of a command.
_meta_usage() {
    _meta_lines "$1" | awk -v word="$2" '$1 == word { split(substr($0, 3), part, /  +/); print part[1] }'
}

# Files with that ending and folders; any files where there is none, and where no ending is given.
_meta_files() {
    local IFS=$'\n'
    COMPREPLY=()
    [ $# -eq 0 ] || COMPREPLY=($(compgen -f -X "!*.$1" -- "$word") $(compgen -d -S / -- "$word"))
    [ ${#COMPREPLY[@]} -gt 0 ] || COMPREPLY=($(compgen -f -- "$word"))
    compopt -o filenames -o nospace 2>/dev/null
    [[ ${COMPREPLY[0]-} == */ ]] || compopt +o nospace 2>/dev/null
}

# The words of a list after --require, each with those before it in the list and without those.
_meta_properties() {
    local before= it
    [[ $2 != *,* ]] || before=${2%,*},
    for it in $("$1" --help 2>/dev/null |
        sed -n '/^LIST is one or more of /{ s///; s/, separated .*//; s/,/ /g; s/ and / /; p; }'); do
        [[ ,$before == *,$it,* ]] || echo "$before$it"
    done
}

# What may follow the words of a command before the one that is completed.
_meta_after() {
    local program=$1 usage arguments=0 flag= help=
    shift
    usage=$(_meta_usage "$program" "$1")
    shift
    [ $# -gt 0 ] || help=--help
    for it; do
        case $flag:$it in
            -*) flag= ;;
            :--*) flag=$it ;;
            *) arguments=$((arguments + 1)) ;;
        esac
    done
    if [ "$flag" = --require ]; then
        COMPREPLY=($(compgen -W "$(_meta_properties "$program" "$word")" -- "$word"))
    elif [ "$flag" ]; then
        COMPREPLY=()
    elif [[ $word == -* ]]; then
        COMPREPLY=($(compgen -W "$(grep -o -e '--[a-z]*' <<<"$usage") $help" -- "$word"))
    else
        case $arguments:$usage in
            0:*' FILE'*) _meta_files raml ;;
            1:*' NET'* | 1:*'[NET]'*) _meta_files net ;;
            2:*' REPORT'*) _meta_files ;;
            0:*' DIR'*) COMPREPLY=($(compgen -d -- "$word")) ;;
        esac
    fi
}

_meta() {
    local program=$1 word=${COMP_WORDS[COMP_CWORD]} words=("${COMP_WORDS[@]:1:COMP_CWORD-1}")
    COMPREPLY=()
    # Words that stand before a command leave the command to be completed.
    while [[ ${words[0]-} == --proved || ${words[0]-} == --unproved || ${words[0]-} == --json || ${words[0]-} == help ]]; do
        words=("${words[@]:1}")
    done
    if [ ${#words[@]} -eq 0 ]; then
        COMPREPLY=($(compgen -W "$(_meta_lines "$program" | awk '{ print $1 }')" -- "$word"))
    else
        _meta_after "$program" "${words[@]}"
    fi
}

complete -F _meta meta
