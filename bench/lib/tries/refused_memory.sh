#!/usr/bin/env bash
# bench/try refused_memory PROGRAM CALLS: refused_memory.py has its help.
#
# Growths are numbered in the order in which all threads of a run meet them. With workers in threads that order is the
# schedule's: a number names another growth in another run, and a run may have a few more or fewer (the start of a
# thread is one). So each number fails in some run, but not each growth of each schedule. If the start of a thread
# fails, the others do its work, and the answer is whole.
set -u
top=$(cd "$(dirname "${BASH_SOURCE[0]}")/../../.." && pwd) || exit 1
program=$1 calls=$2
work=$(mktemp -d) || exit 1
# three small files are written again for each run: a disk makes a run four times as long as memory does
quick=$(mktemp -d -p /dev/shm 2>/dev/null) || quick=$work
trap 'rm -rf "$work" "$quick"' EXIT
cd "$work" || exit 1
cc -shared -fPIC -O1 -o refuse.so "$top/bench/refuse.c" -ldl || exit 1
bad=0

# take NAME FILE: sets the variable to the whole text of a file, without a process of its own
take() {
    IFS= read -r -d '' "$1" < "$2"
}

# refuse INPUT ARGUMENT..: runs the program with these arguments, over INPUT on standard input, each growth failing in
# turn
refuse() {
    local input=$1 name status whole told ended out said answer n=0 refused=0 missed=0
    shift
    name=${*:-< $input}
    "$program" "$@" <"$input" >"$quick/out" 2>"$quick/err"
    status=$?
    take whole "$quick/out"
    take told "$quick/err"
    # a run that had fewer growths than another ends nothing: three numbers in a row have to be met by none
    while [ "$missed" -lt 3 ]; do
        n=$((n + 1))
        : > "$quick/met"
        REFUSE=$n REFUSED=$quick/met LD_PRELOAD=$work/refuse.so \
            "$program" "$@" <"$input" >"$quick/out" 2>"$quick/err"
        ended=$?
        if [ -s "$quick/met" ]; then refused=$((refused + 1)) missed=0; else missed=$((missed + 1)); fi
        take out "$quick/out"
        take said "$quick/err"
        answer="$ended,$out"
        if [ "$missed" = 0 ] && [ "$answer" = 1, ] && [[ -z $said || $said == $'out of memory\n' ]]; then continue; fi
        if [ "$answer" = "$status,$whole" ] && [[ -z $said || $said == "$told" ]]; then continue; fi
        echo "$name: growth $n failed: status $ended, ${#out} characters of output, '${said%$'\n'}'"
        bad=$((bad + 1))
    done
    echo "$name: $refused growths failed, one after the other"
    # the program takes memory for every answer: if no growth failed, nothing was tried
    [ "$refused" != 0 ] || bad=$((bad + 1))
}

# the calls of case_runner in the order of its lines, and the ways in which they fail
names=(hand update_in_place update arrive tick_alone tick_play tick ticks update_all report_text)
ways=(hand update_in_place update arrive tick_alone tick_play tick ticks "update_all, no room" "update_all, update"
    report_text)
declare -A seen=()

# is_expected FILE: whether the file reports of one call that it failed and what was left then, and of the others that
# they were done
is_expected() {
    local lines way n odd=()
    mapfile -t lines < "$1"
    [ "${#lines[@]}" = "${#names[@]}" ] || return 1
    for n in "${!names[@]}"; do
        [ "${lines[n]}" = "${names[n]}: done" ] || odd+=("${names[n]}|${lines[n]}")
    done
    [ "${#odd[@]}" = 1 ] || return 1
    for way in "${ways[@]}"; do
        if [[ ${odd[0]} == "${way%,*}|$way: refused; "?* ]]; then
            seen[$way]=1
            return 0
        fi
    done
    return 1
}

# refuse_calls: runs case_runner calls with each growth failing, once or until each way was seen, and five times at most
refuse_calls() {
    local status whole out said way n refused=0 missed
    whole=$(printf '%s: done\n' "${names[@]}")$'\n'
    for _ in 1 2 3 4 5; do
        n=0 missed=0
        while [ "$missed" -lt 3 ]; do
            n=$((n + 1))
            : > "$quick/met"
            REFUSE=$n REFUSED=$quick/met LD_PRELOAD=$work/refuse.so \
                "$calls" calls </dev/null >"$quick/out" 2>"$quick/err"
            status=$?
            if [ -s "$quick/met" ]; then refused=$((refused + 1)) missed=0; else missed=$((missed + 1)); fi
            take out "$quick/out"
            take said "$quick/err"
            if [ "$status,$out$said" = "0,$whole" ]; then continue; fi
            if [ "$missed" = 0 ] && [ "$status,$out$said" = 1, ]; then continue; fi
            if [ "$missed" = 0 ] && [ "$status,$said" = 0, ] && is_expected "$quick/out"; then continue; fi
            echo "case_runner calls: growth $n failed: status $status, '${out//$'\n'/ / }', '${said%$'\n'}'"
            bad=$((bad + 1))
        done
        [ "${#seen[@]}" -lt "${#ways[@]}" ] || break
    done
    for way in "${ways[@]}"; do
        if [ ! "${seen[$way]-}" ]; then
            echo "case_runner calls: in no run did memory fail in $way"
            bad=$((bad + 1))
        fi
    done
    echo "case_runner calls: $refused growths failed, one after the other;" \
        "${#seen[@]} of ${#ways[@]} failures of its calls seen"
}

# five pods by four ticks: two pods from the beginning, and one more before each later tick
late_pods() {
    local pod shown=''
    printf '{"kind":"node","name":"n1","version":2}\n'
    for pod in 0 1 2 3 4; do
        printf '{"kind":"pod","pod":{"metadata":{"name":"p%d"},"spec":{"containers":[{"name":"c"}]}}}\n' "$pod"
        shown+=,$(printf '{"pod":"default/p%d","containers":[{"name":"c","state":1}]}' "$pod")
        [ "$pod" = 0 ] || printf '{"kind":"tick","at":%d,"pods":[%s]}\n' "$pod" "${shown#,}"
    done
}

families=$top/crates/case_runner/data/traces
cp "$top"/examples/*.trace "$families/eviction/too_little_freed.trace" . || exit 1
cp "$families/extended/evicted_pod_comes_again_and_is_evicted_again.trace" comes_again.trace || exit 1
late_pods > late_pods.trace
printf '{"kind":"node","name":"n1"}\n{"kind":"tick","at":1}\n{"kind":"tick","at":1}\n' > same_moment.trace
printf 'steal 1 0\nupdate 1\npop 0\nenter 1\n' > stolen.steps
printf 'pop 0\n\npop 64\n' > faulty.steps
for trace in "$top"/examples/*.trace same_moment.trace; do
    refuse "${trace##*/}"
done
for trace in crash_loop.trace too_little_freed.trace late_pods.trace; do
    refuse /dev/null run "$trace" --workers 1
    refuse /dev/null run "$trace" --workers 3
    refuse /dev/null play "$trace" stolen.steps --workers 3
    refuse /dev/null check "$trace"
    [ -e "$top/examples/$trace" ] || refuse "$trace"
done
refuse /dev/null run comes_again.trace --extended --workers 1
refuse /dev/null run comes_again.trace --extended --workers 3
refuse /dev/null play comes_again.trace stolen.steps --workers 3 --extended
refuse /dev/null check comes_again.trace --extended
refuse /dev/null run same_moment.trace
refuse /dev/null run
refuse /dev/null run crash_loop.trace --workers 65
refuse /dev/null play crash_loop.trace faulty.steps
refuse_calls
[ "$bad" = 0 ]
