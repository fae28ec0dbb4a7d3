#!/bin/sh
# Prints what completes the words of dpl in a shell, made of what `dpl --help` says. usage: scripts/completions.sh EXECUTABLE bash|zsh|fish
set -eu

help=$("$1" --help)
# The long options, and of each the word for its value, if it has one, and what it is for.
options() { echo "$help" | sed -n 's/^ *\(-., \)\{0,1\}\(--[a-z0-9]*\) *\(<[^>]*>\)\{0,1\}  *\(.*\)$/\2|\3|\4/p'; }
names() { options | cut -d '|' -f 1 | tr '\n' ' ' | sed 's/ $//'; }

case ${2:-} in
    bash)
        cat <<BASH
_dpl() {
    local word=\${COMP_WORDS[COMP_CWORD]} before=\${COMP_WORDS[COMP_CWORD-1]}
    case \$before in
        --maps) COMPREPLY=(\$(compgen -W "asis block cyclic" -- "\$word")); return ;;
        --budget | --locales | --grid2 | --grid3) return ;;
    esac
    case \$word in
        -*) COMPREPLY=(\$(compgen -W "$(names)" -- "\$word")) ;;
        *) COMPREPLY=(\$(compgen -f -X '!*.chpl' -- "\$word") \$(compgen -d -S / -- "\$word")) ;;
    esac
}
complete -o filenames -F _dpl dpl
BASH
        ;;
    zsh)
        echo '#compdef dpl'
        echo '_arguments \'
        options | tr "[]:'" '()  ' | while IFS='|' read -r name value about; do
            case $name in
                --maps) echo "    '$name[$about]:maps:(asis block cyclic)' \\" ;;
                *) echo "    '$name[$about]${value:+:${value}: }' \\" ;;
            esac
        done
        echo "    '1:program:_files -g \"*.chpl\"' '*:set: '"
        ;;
    fish)
        echo "complete -c dpl -k -a '(__fish_complete_suffix .chpl)'"
        options | sed "s/'/ /g" | while IFS='|' read -r name value about; do
            case $name in
                --maps) echo "complete -c dpl -l maps -x -a 'asis block cyclic' -d '$about'" ;;
                *) echo "complete -c dpl -l ${name#--} ${value:+-x }-d '$about'" ;;
            esac
        done
        ;;
    *)
        echo "completions.sh: the shell is bash, zsh or fish" >&2
        exit 2
        ;;
esac
