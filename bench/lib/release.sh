#!/usr/bin/env bash
# Makes the archives and the Debian package of a release; bench/release has the help.
#   release.sh FOLDER PROGRAM KEY      PROGRAM and KEY may be empty
set -u
top=$(cd "$(dirname "${BASH_SOURCE[0]}")/../.." && pwd) || exit 1
# shellcheck source=bench/lib/current.sh
. "$top/bench/lib/current.sh" || exit 1
# fail ERROR [STATUS]
fail() { echo "bench/release: $1" >&2; exit "${2:-1}"; }
folder=$1 given=$2 key=$3
for command in git dpkg-deb readelf; do
    command -v "$command" >/dev/null 2>&1 || fail "$command is missing" 127
done
signer=''
if [ -n "$key" ]; then
    [ -r "$key" ] || fail "there is no key $key, or it can't be read" 2
    # signify's begin with a comment
    if head -n 1 "$key" | grep -q '^untrusted comment:'; then signer=signify-openbsd; else signer=openssl; fi
    command -v "$signer" >/dev/null 2>&1 || fail "$signer is missing" 127
fi
version=$(cat "$top/VERSION") && commit=$(git -C "$top" rev-parse HEAD) || exit 1
date=$(git -C "$top" log -1 --format=%cs) && moment=$(git -C "$top" log -1 --format=%ct) || exit 1
# a build of a commit that is no release has a version of its own
build=$version
if ! git -C "$top" tag --points-at HEAD | grep -qxF "v$version"; then
    build=$version+git${date//-/}.${commit:0:8}
fi
if [ -n "$given" ]; then
    [ -x "$given" ] || fail "there is no program $given" 2
    program=$(readlink -f "$given") proof="not asked for: the program of --program"
else
    [ -x "$program" ] || fail "there is no program $program: ./test or ./kubelet_replay builds it"
    is_current || fail "$program is older than its sources: ./test or ./kubelet_replay builds it again"
    is_proved || fail "$program is not the program that was proved last: ./test proves it"
    [ -z "$(git -C "$top" status --porcelain)" ] || fail "the checkout has changes, so no commit names it"
    proof="proved, by crates/replay_program/out/proved"
fi
kit=$(rt version 2>/dev/null) || kit="not known: there is no kit on this machine"

# the libraries that the program names; the loader is next to the C library
needed=$(readelf -d "$program" | sed -n 's/.*(NEEDED).*\[\(.*\)\]/\1/p' | grep -v '^ld-linux' | tr '\n' ' ')
if [ "$needed" != "libc.so.6 " ]; then
    [ -n "$given" ] || fail "the program needs more than libc.so.6: $needed"
    echo "bench/release: this program needs more than libc.so.6: $needed" >&2
fi
libc=$(readelf -V "$program" | grep -o 'GLIBC_[0-9.]*' | sed 's/GLIBC_//' | sort -uV | tail -n 1)

work=$(mktemp -d) || exit 1
trap 'rm -r "$work"' EXIT
name=kubelet-replay-$build-x86_64-linux package=kubelet-replay_${build}_amd64.deb tools=kubelet-replay-tools-$build-all
tree=$work/$name

# the bytecode of the tools for this Python, by the names of the release; another Python passes it over, and each
# checks whether it is of the source next to it, whatever the file's time
compile_tools() {
    (cd "$tree" && python3 -m compileall -q --invalidation-mode checked-hash tools/replay_tools)
}

fill_tree() {
    mkdir -p "$tree/man" "$tree/lib" &&
        cp "$program" "$tree/lib/kubelet_replay" &&
        python3 -B "$top/bench/lib/release_files.py" "$top" "$tree" &&
        compile_tools &&
        ln -s tools/kubelet-replay "$tree/kubelet-replay" &&
        python3 "$top/bench/lib/manual.py" "$program" "$top" "$version" "$date" >"$tree/man/kubelet_replay.1" &&
        python3 -B "$top/bench/lib/tool_manual.py" "$top" "$tree/man" "$version" "$date" &&
        printf '%s\n' "version: $build" "commit: $commit" "kit: $kit" "proof: $proof" >"$tree/BUILD" &&
        (cd "$tree" && find . -type f -printf '%P\0' | sort -z | xargs -0 sha256sum) >"$work/sums" &&
        mv "$work/sums" "$tree/SHA256SUMS"
}

# pack NAME: the folder of that name as an archive, the same bytes for the same commit
pack() {
    tar --sort=name --owner=0 --group=0 --numeric-owner --mode=u=rwX,go=rX --mtime="@$moment" -C "$work" -c "$1" |
        gzip -9n >"$folder/$1.tar.gz"
}

# the tree without the program, its manual page and what starts it as a service, for machines that can't run it
make_tools() {
    cp -r "$tree" "$work/$tools" &&
        (cd "$work/$tools" && rm -r lib man/kubelet_replay.1 deploy) &&
        (cd "$work/$tools" && rm SHA256SUMS && find . -type f -printf '%P\0' | sort -z | xargs -0 sha256sum) \
            >"$work/sums" &&
        mv "$work/sums" "$work/$tools/SHA256SUMS"
}

# the text on copyright, as Debian requires it; the repository has no licence
write_copyright() {
    local owner
    owner=$(git -C "$top" log -1 --format=%an) &&
        printf '%s\n' "Format: https://www.debian.org/doc/packaging-manuals/copyright-format/1.0/" \
            "Upstream-Name: kubelet-replay" "Upstream-Contact: $(git -C "$top" log -1 --format='%an <%ae>')" "" \
            "Files: *" "Copyright: ${date%%-*} $owner" "License: none-yet" \
            " There is no licence yet."
}

# what each shell asks for completions, where it looks
place_completions() {
    local share=$1 from=$tree/tools/completion
    install -D -m 644 "$from/kubelet-replay.bash" "$share/bash-completion/completions/kubelet-replay" &&
        install -D -m 644 "$from/_kubelet-replay" "$share/zsh/vendor-completions/_kubelet-replay" &&
        install -D -m 644 "$from/kubelet-replay.fish" "$share/fish/vendor_completions.d/kubelet-replay.fish"
}

# the tree in a folder of its own, with manual pages, documents, completions and the copyright where Debian has them
make_package() {
    local root=$work/package share=$work/package/usr/share
    mkdir -p "$root/DEBIAN" "$root/usr/lib" "$root/usr/bin" "$share/man/man1" "$share/doc" &&
        cp -r "$tree" "$root/usr/lib/kubelet-replay" &&
        rm -r "$root/usr/lib/kubelet-replay/man" "$root/usr/lib/kubelet-replay/SHA256SUMS" &&
        ln -s ../../lib/kubelet-replay "$share/doc/kubelet-replay" &&
        ln -s ../lib/kubelet-replay/tools/kubelet-replay "$root/usr/bin/kubelet-replay" &&
        write_copyright >"$root/usr/lib/kubelet-replay/copyright" &&
        install -D -m 644 -t "$root/usr/lib/systemd/system" "$tree/deploy/kubelet-replay-recorder.service" &&
        cp "$tree"/man/*.1 "$share/man/man1" && gzip -9n "$share"/man/man1/*.1 && place_completions "$share" &&
        cat >"$root/DEBIAN/control" <<CONTROL || return 1
Package: kubelet-replay
Version: $build
Architecture: amd64
Maintainer: $(git -C "$top" log -1 --format='%an <%ae>')
Installed-Size: $(du -sk "$root/usr" | cut -f 1)
Depends: libc6 (>= ${libc:-2.31}), python3 (>= 3.9)
Recommends: jq
Section: admin
Priority: optional
Description: proved replay of the kubelet
 Replays what a kubelet would have decided on a node, from the node's recorded
 trace: which events each pod had, and what its status was. The command
 kubelet-replay has the program and its tools, as a recorder, stories of pods,
 pages for a browser and tables of many nodes.
CONTROL
    # kubectl finds a plugin on the PATH
    for plugin in "$tree"/tools/kubectl-* "$tree"/tools/kubectl_*; do
        [ ! -e "$plugin" ] || ln -s "../lib/kubelet-replay/tools/${plugin##*/}" "$root/usr/bin/" || return 1
    done
    (cd "$root" && find usr -type f -exec md5sum {} + | sort -k 2 >DEBIAN/md5sums) &&
        find "$root" -exec chmod u=rwX,go=rX {} + &&
        SOURCE_DATE_EPOCH=$moment dpkg-deb --root-owner-group --build "$root" "$folder/$package" >/dev/null
}

sum_all() {
    (cd "$folder" && sha256sum "$name.tar.gz" "$tools.tar.gz" "$package" >SHA256SUMS)
}

# signs the sums, where that is asked for; a signature of other sums does not stay
sign() {
    rm -f "$folder/SHA256SUMS.sig" &&
        case $signer in
        openssl) openssl pkeyutl -sign -rawin -inkey "$key" -in "$folder/SHA256SUMS" -out "$folder/SHA256SUMS.sig" ;;
        signify-openbsd) signify-openbsd -S -s "$key" -m "$folder/SHA256SUMS" -x "$folder/SHA256SUMS.sig" ;;
        esac
}

release() {
    mkdir -p "$folder" && folder=$(readlink -f "$folder") && fill_tree && make_tools && pack "$name" && pack "$tools" &&
        make_package && sum_all
}

release || fail "nothing was released"
sign || fail "the release is not signed: $signer does not take $key"
printf '%s\n' "$folder/$name.tar.gz" "$folder/$package" "$folder/$tools.tar.gz" "$folder/SHA256SUMS" \
    ${signer:+"$folder/SHA256SUMS.sig"}
