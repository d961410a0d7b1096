#!/bin/sh
# syncs.sh DELF: what the program writes and syncs, and in which order, and that it makes no more calls once one has failed.
#
# DELF is the built program. Run it as `sh checks/syncs.sh crates/delf/out/delf`. It takes some seconds and ends by itself.
# It needs strace, which counts the calls of the running program and can let one of them fail. The calls are told by letters:
# F the folder is synced, J the journal is written, j it is synced, V the vault is written, v it is synced, P a line is printed.
set -u
delf=$(realpath "${1:?syncs.sh DELF}") || exit 2
command -v strace >/dev/null || { echo 'syncs.sh: it needs strace' >&2; exit 2; }
folder=$(mktemp -d) || exit 2
trap 'rm -rf "$folder"' EXIT
cd "$folder" || exit 2

wrong() {
    echo "syncs.sh: $*" >&2
    exit 1
}

schema='schema 1
window 100
object user directly
object photo by_any
edge owns user photo deep
script'
printf '%s\n%s\n' "$schema" 'create 1 user
create 2 photo
link owns 1 2
delete 1 job 7
work 10' >document
printf '%s\n%s\n' "$schema" 'show' >look

# The calls of a run over the document $1, as letters in $letters. The words behind it go to strace.
calls_of() {
    document=$1
    shift
    (cd store && strace -o ../trace "$@" -e trace=openat,fcntl,close,fsync,fdatasync,pwrite64,write,ftruncate,lseek \
        "$delf" run --at 0) <"$document" >printed 2>noise
    status=$?
    letters=$(awk '
        function number(text) { sub(/^[^(]*\(/, "", text); sub(/[,)].*/, "", text); return text }
        / = -1 / && !/INJECTED/ { next }
        /^openat/ { name = $0; sub(/^[^"]*"/, "", name); sub(/".*/, "", name); file[$NF] = name }
        /^fcntl.*F_DUPFD/ { file[$NF] = file[number($0)] }
        /^close/ { delete file[number($0)] }
        /^(fsync|fdatasync|pwrite64|write|ftruncate|lseek)/ {
            name = file[number($0)]
            what = substr($0, 1, index($0, "(") - 1)
            sign = "?"
            if (what == "fsync" && name == "./.") sign = "F"
            if (what == "pwrite64" && name == "./delf.journal") sign = "J"
            if (what == "fdatasync" && name == "./delf.journal") sign = "j"
            if (what == "pwrite64" && name == "./delf.vault") sign = "V"
            if (what == "fdatasync" && name == "./delf.vault") sign = "v"
            if (what == "write" && number($0) == 1) sign = "P"
            printf "%s", sign
        }' trace)
}

is() {
    [ "$letters" = "$2" ] || wrong "$1: $letters, and not $2"
    [ "$status" = 0 ] || wrong "$1: status $status"
    echo "ok: $1: $2"
}

# In a new folder: the folder once, both files as they are found, and the marks of both areas. An entry is written and
# synced, and then its gate. An erased row is in the vault, gate and all, before its entry is in the journal.
new=FjvJjVv
entry=JjJj
erasure=VvVvJjJj
mkdir store
calls_of document
is 'four calls, three erasures' "$new${entry}P${entry}P${entry}P${entry}P$erasure$erasure${erasure}P"

# A store that is there: the folder again, since the run before may have been killed, and both files, before anything else.
calls_of look
case $letters in
    Fjv*P) ;;
    *) wrong "a store that is there: $letters" ;;
esac
[ "$status" = 0 ] || wrong "a store that is there: status $status"
echo "ok: a store that is there: $letters"

# Each call named $1 fails in turn with the error $2. A line tells it, and those of later commands say that the book is down;
# no call on the store comes after it; and a later run reads the store.
fails_in_turn() {
    count=1
    while :; do
        rm -rf store
        mkdir store
        calls_of document -e "inject=$1:error=$2:when=$count"
        grep -q INJECTED trace || break
        case_="$1 number $count fails"
        [ "$status" = 6 ] || wrong "$case_: status $status, and not 6"
        grep -q -E '^(work [0-9]+ )?down at [0-9]+$' printed || wrong "$case_: no line tells it: $(cat printed)"
        after=$(sed -e '1,/INJECTED/d' trace | grep -c -E '^(fdatasync|fsync|pwrite64|ftruncate)')
        [ "$after" = 0 ] || wrong "$case_: $after more calls on the store"
        acknowledged=$(grep -c -E '^[0-9]+ (created|linked)' printed)
        calls_of look
        [ "$status" = 0 ] || wrong "$case_: the store is not read again: $(head -n 1 printed)"
        rows=$(awk '$1 == "graph" { print $2 + $3 }' printed)
        [ "$acknowledged" = 3 ] || [ "$rows" -ge "$acknowledged" ] || wrong "$case_: $acknowledged were acknowledged, and $rows stand"
        count=$((count + 1))
    done
    echo "ok: each of $((count - 1)) calls of $1 failed in turn with $2: the run says so, ends with 6 and makes no more calls"
}

fails_in_turn fdatasync EIO
fails_in_turn pwrite64 ENOSPC

# A file whose sync failed counts as written: once the script orders a crash, the opening syncs it again.
printf '%s\n%s\n' "$schema" 'create 1 user
crash 0
show' >crash
rm -rf store
mkdir store
calls_of crash -e inject=fdatasync:error=EIO:when=5
case $letters in
    "${new}JjPj"*) ;;
    *) wrong "a crash after a failed sync: $letters" ;;
esac
echo "ok: a crash after a failed sync: $letters"

# The folder cannot be synced.
rm -rf store
mkdir store
calls_of document -e inject=fsync:error=EIO
[ "$status $(cat printed)" = '6 down at 0' ] || wrong "the folder cannot be synced: status $status, $(cat printed)"
[ ! -s store/delf.journal ] || wrong 'the folder cannot be synced: something was written'
echo 'ok: the folder cannot be synced: `down at 0`, and nothing is written'
