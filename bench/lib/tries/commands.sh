#!/usr/bin/env bash
# bench/try commands PROGRAM: commands.py has its help. The last line shows how many runs there were.
set -u
top=$(cd "$(dirname "${BASH_SOURCE[0]}")/../../.." && pwd) || exit 1
program=$1
work=$(mktemp -d) || exit 1
trap 'rm -r "$work"' EXIT
cd "$work" || exit 1
bad=0 runs=0

# expect STATUS OUTPUT-FILE ERRORS ARGUMENT..: ERRORS is the whole of standard error, or with a * how it begins
expect() {
    local status=$1 output=$2 errors=$3 ended
    shift 3
    (exec -a kubelet_replay "$program" "$@") >out 2>err </dev/null
    ended=$?
    runs=$((runs + 1))
    # shellcheck disable=SC2053 # ERRORS is a pattern
    if [ "$ended" != "$status" ] || ! cmp -s out "$output" || [[ $(cat err) != $errors ]]; then
        echo "$*: status $ended, '$(head -n 1 err)', $(wc -c <out) bytes"
        bad=$((bad + 1))
    fi
}

: > none
printf 'steal 1 0\nupdate 1\npop 0\nenter 1\n' > stolen.steps
printf 'pop 1\n\nsteal 63 0\nupdate 63\nenter 1\nsteal 0 1\n' > far.steps
printf 'pop 0\n\npop 64\n' > faulty.steps
head -c 1048576 /dev/zero | tr '\0' '\n' > longest.steps
head -c 1048577 /dev/zero | tr '\0' '\n' > long.steps
printf '{"kind":"node","name":"n1"}\n{"kind":"pod"}\n' > faulty.trace

# the limits: steps, bytes, pods and ticks, each as many as there may be, and one more
yes 'pop 0' | head -n 100000 > most.steps
{ cat most.steps; echo 'pop 0'; } > more.steps
node='{"kind":"node","name":"n1"}'
pods() {
    echo "$node"
    seq "$1" | sed 's|.*|{"kind":"pod","pod":{"metadata":{"name":"p&"},"spec":{"containers":[{"name":"c"}]}}}|'
}
ticks() {
    pods 1
    seq "$1" | sed 's|.*|{"kind":"tick","at":&,"pods":[{"pod":"default/p1","containers":[{"name":"c","state":1}]}]}|'
}
pods 256 > most_pods.trace
pods 257 > more_pods.trace
ticks 20000 > most_ticks.trace
ticks 20001 > more_ticks.trace
{ cat most_pods.trace; head -c $((67108864 - $(wc -c <most_pods.trace))) /dev/zero | tr '\0' '\n'; } > longest.trace
{ cat longest.trace; echo; } > longer.trace
echo 'ok pods=256 ticks=0' > all_pods
echo 'ok pods=1 ticks=20000' > all_ticks
for trace in "$top"/examples/*.trace; do
    report=${trace%.trace}.report
    sed -n '1s/^node [^ ]*/ok/p' "$report" > checked
    expect 0 "$report" '' run "$trace"
    expect 0 "$report" '' run --workers 64 "$trace"
    expect 0 checked '' check "$trace"
    expect 0 "$report" '' play "$trace" none --workers 1
    expect 0 "$report" '' play "$trace" stolen.steps --workers 2
    expect 0 "$report" '' play "$trace" far.steps --workers=64
done
first=$top/examples/first_tick.trace
expect 2 none 'line 2: 35 Manifest 11' run faulty.trace
expect 2 none 'line 2: 35 Manifest 11' check faulty.trace
expect 2 none 'line 1: 34 Order' check none
expect 1 none 'read failed' run no_such.trace
expect 1 none 'read failed' play "$first" no_such.steps
expect 3 none 'steps line 3' play "$first" faulty.steps
# the steps are read before the trace
expect 3 none 'steps line 3' play faulty.trace faulty.steps
expect 0 "${first%.trace}.report" '' play "$first" longest.steps
expect 1 none 'input too long' play "$first" long.steps
expect 0 "${first%.trace}.report" '' play "$first" most.steps
expect 3 none 'steps line 100001' play "$first" more.steps
expect 0 all_pods '' check most_pods.trace
expect 2 none 'line 258: 45 TooMany' check more_pods.trace
expect 2 none 'line 258: 45 TooMany' run more_pods.trace
expect 0 all_ticks '' check most_ticks.trace
expect 2 none 'line 20003: 45 TooMany' check more_ticks.trace
expect 2 none 'line 20003: 45 TooMany' run more_ticks.trace --workers 3
expect 0 all_pods '' check longest.trace
expect 1 none 'input too long' check longer.trace
expect 1 none 'input too long' run longer.trace
expect 3 none 'error: *' run "$first" --workers 0
expect 3 none 'error: *' run "$first" --workers 65
expect 3 none 'error: *' run "$first" --workers four
expect 3 none 'error: *' run
expect 3 none 'error: *' play "$first"
expect 3 none 'error: *' replay "$first"
expect 3 none 'error: *' check "$first" more
expect 3 none 'argument is not valid UTF-8' check $'\xff'
# the wrapper answers these without the program
echo "kubelet_replay $(cat "$top/VERSION")" > version
for word in -h --help help; do
    expect 0 "$top/docs/help.txt" '' $word
done
for word in -V --version; do
    expect 0 version '' $word
done
# what is not printed does not end well
for word in --help --version; do
    (exec -a kubelet_replay "$program" $word) >/dev/full 2>err </dev/null
    ended=$?
    runs=$((runs + 1))
    if [ "$ended" != 1 ] || [ "$(cat err)" != 'write failed' ]; then
        echo "$word on a full device: status $ended, '$(head -n 1 err)'"
        bad=$((bad + 1))
    fi
done
echo "$runs runs of commands, $bad otherwise than expected"
[ "$bad" = 0 ]
