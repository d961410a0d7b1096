#!/bin/sh
# modes.sh DELF: that a store is made for its owner alone, and that files which are there keep their bits.
#
# DELF is the built program. Run it as `sh checks/modes.sh crates/delf/out/delf`. It takes a second and ends by itself.
set -u
delf=$(realpath "${1:?modes.sh DELF}") || exit 2
folder=$(mktemp -d) || exit 2
trap 'rm -rf "$folder"' EXIT
cd "$folder" || exit 2

wrong() {
    echo "modes.sh: $*" >&2
    exit 1
}

printf 'schema 1\nwindow 1\nobject user directly\nscript\nshow\n' >document

# A run under the mask $1 leaves both files with the bits $2.
run_leaves() {
    (umask "$1" && "$delf" run --at 0 <document >/dev/null) || wrong "under the mask $1: status $?"
    for file in delf.journal delf.vault; do
        bits=$(stat -c %a "$file")
        [ "$bits" = "$2" ] || wrong "$file has the bits $bits, and not $2"
    done
}

run_leaves 000 600
echo 'ok: with an open mask both files are made with 600'
rm delf.journal delf.vault
run_leaves 022 600
echo 'ok: with the usual mask both files are made with 600'
chmod 640 delf.journal delf.vault
run_leaves 022 640
echo 'ok: files that are there keep 640'
