# shellcheck shell=bash
# Completes the arguments of kubelet-replay in bash. The command gets the line up to the cursor. It prints a line for
# each candidate for the last argument, and then :0 if files are candidates too.
_kubelet_replay() {
    local said line=${COMP_LINE:0:COMP_POINT}
    mapfile -t said < <("${COMP_WORDS[0]/#\~\//$HOME/}" __complete_line "$line" 2>/dev/null)
    [ ${#said[@]} != 0 ] || return
    COMPREPLY=("${said[@]:0:${#said[@]}-1}")
    # bash replaces only what follows the last colon of an argument
    local last=${line##*[[:space:]=]}
    [[ $COMP_WORDBREAKS != *:* || $last != *:* ]] || COMPREPLY=("${COMPREPLY[@]#"${last%"${last##*:}"}"}")
    [ "${said[*]: -1}" != :0 ] || [ ${#COMPREPLY[@]} != 0 ] || compopt -o default 2>/dev/null
}
complete -F _kubelet_replay kubelet-replay
