#!/usr/bin/env bash
# in_bash.sh PREFIX WORD..: prints what bash makes of the last word, by the completion that is installed under the
# prefix and that bash-completion finds there by itself.
XDG_DATA_HOME=$1/share
shift
. /usr/share/bash-completion/bash_completion

# function_of [COMMAND]: the function that completes it; without one, that which reads a completion in.
function_of() { complete -p "${1--D}" | sed 's/.*-F \([^ ]*\) .*/\1/'; }

"$(function_of)" "$1"
COMP_WORDS=("$@")
COMP_CWORD=$(($# - 1))
COMPREPLY=()
"$(function_of "$1")" "$1" "${COMP_WORDS[COMP_CWORD]}" "${COMP_WORDS[COMP_CWORD - 1]}"
printf '%s\n' "${COMPREPLY[@]}"
