#!/usr/bin/env bash
# bench/try release FOLDER [ROOT]: release.py has its help. The last line is 'N passed, M failed'.
set -u
archive=$(echo "$1"/kubelet-replay-*-x86_64-linux.tar.gz) package=$(echo "$1"/kubelet-replay_*_amd64.deb)
tools=$(echo "$1"/kubelet-replay-tools-*-all.tar.gz)
if [ ! -f "$archive" ] || [ ! -f "$package" ] || [ ! -f "$tools" ]; then
    echo "bench/try release: there is no release in $1" >&2
    exit 2
fi
work=$(mktemp -d) || exit 1
trap 'rm -r "$work"' EXIT
passed=0 failed=0
story='shop/api-7f9c on worker-3: Running, BestEffort' paths=PATH=/usr/sbin:/usr/bin:/sbin:/bin

# try WHAT COMMAND..: the command has to end with status 0
try() {
    local what=$1
    shift
    if "$@" >"$work/output" 2>&1; then
        passed=$((passed + 1))
    else
        failed=$((failed + 1))
        echo "$what: $(head -n 1 "$work/output")"
    fi
}

if [ "$(id -u)" = 0 ]; then
    way=(chroot)
elif unshare -r true 2>/dev/null; then
    way=(unshare -r chroot)
else
    way=()
    echo "bench/try release: no user namespace may be made here: the program runs by the copied loader, not in its root"
fi

# in_root ROOT COMMAND..: runs the command with this folder as root, with no more of the environment than a PATH
in_root() {
    local root=$1 words=()
    if [ ${#way[@]} != 0 ]; then
        env -i "$paths" "${way[@]}" "$@"
        return
    fi
    shift
    for word in "$@"; do
        case $word in
        /*) words+=("$root$word") ;;
        *) words+=("$word") ;;
        esac
    done
    env -i "$root/lib64/ld-linux-x86-64.so.2" --library-path "$root/lib/x86_64-linux-gnu" "${words[@]}"
}

# examples ROOT FOLDER PROGRAM: each example's report, by this program in this folder of the root
examples() {
    local root=$1 folder=$2 program=$3 trace
    for trace in "$root$folder"/examples/*.trace; do
        in_root "$root" "$program" run "$folder/examples/${trace##*/}" >"$work/report" </dev/null || return 1
        cmp "$work/report" "${trace%.trace}.report" || return 1
    done
}

prints_version() {
    [ "$(in_root "$1" "$2" --version)" = "kubelet_replay $3" ]
}

# prints_story COMMAND..: the command prints the story of the examples' first pod
prints_story() {
    [ "$("$@" <"$crash" | head -n 1)" = "$story" ]
}

# refers COMMAND..: the command ends with 127 and one line that shows where the program is
refers() {
    local line
    line=$("$@" 2>&1)
    [ $? = 127 ] && [ "$(printf '%s\n' "$line" | wc -l)" = 1 ] && [[ $line == *"Linux on x86-64"* ]]
}

# takes_bytecode FOLDER COMMAND..: Python, started by this command, takes the bytecode of the tools in the folder, where
# there is some of its version, and leaves none there
takes_bytecode() {
    local folder=$1/tools/replay_tools before version
    shift
    before=$(find "$folder" -name '*.pyc' | sort)
    "$@" >"$work/verbose" 2>&1 || { echo "the tool ended with status $?"; return 1; }
    [ "$(find "$folder" -name '*.pyc' | sort)" = "$before" ] || { echo "it left bytecode in $folder"; return 1; }
    version=$(grep -o 'cpython-[0-9]*' "$work/verbose" | head -n 1)
    [ -e "$folder/__pycache__/entry.$version.pyc" ] || return 0
    grep -q "code object from .*/replay_tools/__pycache__/entry\\.$version\\.pyc" "$work/verbose" ||
        { echo "the bytecode of $version is passed over"; return 1; }
}

# groff reports no fault of these manual pages
are_clean() {
    groff -man -Tutf8 -ww -z "$@" 2>&1 | { ! grep .; }
}

# has_files ROOT FILE..: the files are there, by links too
has_files() {
    local root=$1 file
    shift
    for file; do
        [ -s "$root$file" ] || { echo "$file is missing"; return 1; }
    done
}

empty=$work/empty
mkdir -p "$empty/opt" "$work/both"
try "the sums of all" sh -c "cd '$1' && sha256sum -c --quiet SHA256SUMS"
tar -xzf "$archive" -C "$empty/opt" || exit 1
place=/opt/$(ls "$empty/opt")
version=$(cat "$empty$place/VERSION") crash=$empty$place/examples/crash_loop.report
try "the sums of the archive's files" sh -c "cd '$empty$place' && sha256sum -c --quiet SHA256SUMS"
ldd "$empty$place/lib/kubelet_replay" | grep -o '/[^ ]*' | while read -r library; do
    mkdir -p "$empty${library%/*}" && cp -L "$library" "$empty$library" || exit 1
done
try "the examples in an empty root" examples "$empty" "$place" "$place/lib/kubelet_replay"
try "one command at the archive's top" sh -c "[ \"\$(ls '$empty$place' | grep '^kubelet')\" = kubelet-replay ]"
try "the version in an empty root" prints_version "$empty" "$place/lib/kubelet_replay" "$version"
try "a story by the archive's tools" prints_story env -i "$paths" "$empty$place/tools/story" shop/api-7f9c
try "the bytecode of the archive" takes_bytecode "$empty$place" \
    env -i "$paths" PYTHONVERBOSE=1 "$empty$place/tools/story" --version
try "a story by the archive's one command" prints_story env -i "$paths" "$empty$place/kubelet-replay" story api-7f9c
mkdir "$work/tools" && tar -xzf "$tools" -C "$work/tools" || exit 1
apart=$work/tools/$(ls "$work/tools")
try "the sums of the tools' files" sh -c "cd '$apart' && sha256sum -c --quiet SHA256SUMS"
try "a story by the tools' archive" prints_story env -i "$paths" "$apart/kubelet-replay" story api-7f9c
try "the tools' archive shows where the program is" refers env -i "$paths" "$apart/kubelet-replay" story -f \
    "$apart/examples/crash_loop.trace" api-7f9c
try "the tools' archive has no program" sh -c "[ ! -e '$apart/lib' ]"
if command -v groff >/dev/null 2>&1; then
    try "the manual pages" are_clean "$empty$place"/man/*.1
else
    echo "bench/try release: groff is missing, so nothing checks the manual pages"
fi

if [ $# = 2 ]; then
    root=$2 place=/usr/lib/kubelet-replay
    cp "$package" "$root/tmp/" || exit 1
    try "the package is installed" in_root "$root" /usr/bin/dpkg -i "/tmp/${package##*/}"
    try "the examples by the package" examples "$root" "$place" "$place/lib/kubelet_replay"
    try "the version of the package" prints_version "$root" "$place/lib/kubelet_replay" "$version"
    try "a report by the package's one command" in_root "$root" kubelet-replay run "$place/examples/crash_loop.trace"
    try "the program is no command of its own" sh -c "[ ! -e '$root/usr/bin/kubelet_replay' ]"
    try "a story by the package" prints_story in_root "$root" "$place/tools/story" shop/api-7f9c
    try "the bytecode of the package" takes_bytecode "$root$place" \
        in_root "$root" /usr/bin/env PYTHONVERBOSE=1 "$place/tools/story" --version
    try "a story by the package's one command" prints_story in_root "$root" kubelet-replay story api-7f9c
    try "a story of a trace by it" in_root "$root" kubelet-replay story -f "$place/examples/crash_loop.trace" api-7f9c
    try "the package's files" has_files "$root" /usr/share/doc/kubelet-replay/copyright \
        /usr/share/man/man1/kubelet-replay-story.1.gz /usr/share/man/man1/kubelet_replay.1.gz \
        /usr/share/bash-completion/completions/kubelet-replay /usr/share/zsh/vendor-completions/_kubelet-replay \
        /usr/share/fish/vendor_completions.d/kubelet-replay.fish
    # the unit is there, and nothing has enabled it
    try "the unit of the recorder" has_files "$root" /usr/lib/systemd/system/kubelet-replay-recorder.service
    try "the unit is not enabled" sh -c "[ -z \"\$(find '$root/etc/systemd' -name '*kubelet-replay*' 2>/dev/null)\" ]"
    try "the package is removed" in_root "$root" /usr/bin/dpkg -r kubelet-replay
    rm "$root/tmp/${package##*/}"
fi
echo "$passed passed, $failed failed"
[ "$failed" = 0 ]
