# shellcheck shell=bash
# Whether the program in crates/replay_program/out is the program of the sources, and whether it was proved. A script
# that reads this file sets top, the folder of the repository.
: "${top:?}"
program=$top/crates/replay_program/out/replay_program
# the sum of the program that was proved last
proved=$top/crates/replay_program/out/proved
# the names of the crates that it uses
crates_of_program=$top/crates/replay_program/out/crates

# Puts the names of the crates that the program uses, with its own, into the array crates. Keeps them in a file next to
# the program until crates.txt is newer, since Python takes longer than most replays.
read_crates() {
    local names
    if [ "$crates_of_program" -nt "$top/crates.txt" ]; then
        mapfile -t crates <"$crates_of_program"
        return
    fi
    if ! command -v python3 >/dev/null 2>&1; then
        echo "${0##*/}: python3 is missing; it reads crates.txt" >&2
        exit 127
    fi
    names=$(python3 -B "$top/bench/lib/crates.py" "$top" replay_program) || exit
    mapfile -t crates <<<"$names"
    # where nothing can be written they are read again the next time
    { printf '%s\n' "$names" >"$crates_of_program.$$" && mv "$crates_of_program.$$" "$crates_of_program"; } 2>/dev/null
}

# no source of the program is newer than it
is_current() {
    local name part parts=() crates=()
    [ ! "$top/crates.txt" -nt "$program" ] || return
    read_crates
    for name in "${crates[@]}"; do
        for part in src specs proofs; do
            [ -d "$top/crates/$name/$part" ] && parts+=("$top/crates/$name/$part")
        done
    done
    [ -z "$(find "${parts[@]}" -type f -newer "$program" -print -quit)" ]
}

# keeps the sum of the program, which was just proved
keep_as_proved() {
    sha256sum <"$program" >"$proved"
}

# it is the program that was proved last
is_proved() {
    [ -f "$proved" ] && [ "$(sha256sum <"$program")" = "$(cat "$proved")" ]
}
