# Completes the arguments of kubelet-replay in fish. The command prints a line for each candidate for the last argument,
# and then :0 if files are candidates too.
function __kubelet_replay_candidates
    # fish keeps a tilde as it was typed
    set -l words (string replace -r '^~/' "$HOME/" -- (commandline -opc))
    # the argument itself still has its blanks escaped, and a quote that may be open
    set -l last (string unescape -- (commandline -ct))
    set -l said (command $words[1] __complete $words[2..-1] "$last" 2>/dev/null)
    # candidates for the value of --option= have no option
    set -l option (string match -r -- '^--[^=]*=' "$last")
    if test (count $said) -gt 1
        printf '%s\n' "$option"$said[1..-2]
    else if test "$said[-1]" = :0
        printf '%s\n' "$option"(__fish_complete_path (string replace -r -- '^--[^=]*=' '' "$last"))
    end
end
complete -c kubelet-replay -f -a '(__kubelet_replay_candidates)'
