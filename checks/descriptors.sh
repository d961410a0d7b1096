#!/bin/sh
# descriptors.sh DELF: that no printed line goes into a store, whichever of the descriptors 0, 1 and 2 are closed at the start.
#
# DELF is the built program. Run it as `sh checks/descriptors.sh crates/delf/out/delf`. It takes a few seconds and ends by itself.
# For each set of closed descriptors it runs a document and `load 8` in a folder of their own, looks at the status, and looks
# for printed text in both files. Then a run with all descriptors open has to read the store and find in it the commands made.
set -u
delf=$(realpath "${1:?descriptors.sh DELF}") || exit 2
folder=$(mktemp -d) || exit 2
trap 'rm -rf "$folder"' EXIT
cd "$folder" || exit 2

wrong() {
    echo "descriptors.sh: $*" >&2
    exit 1
}

schema='schema 1
window 100
object user directly
object photo by_any
edge owns user photo deep
script'
printf '%s\n%s\n' "$schema" 'create 1 user
create 2 photo
link owns 1 2
delete 1 job 7
work 10
show' >document
printf '%s\n%s\n' "$schema" 'show' >look

# Runs the words behind $1 with the descriptors of $1 closed, and leaves the status in $status. What is printed goes into printed.
run_closed() {
    closed=$1
    shift
    rm -rf store
    mkdir store
    : >printed
    (
        exec <document >printed 2>noise
        cd store || exit 99
        case $closed in *0*) exec <&- ;; esac
        case $closed in *1*) exec >&- ;; esac
        case $closed in *2*) exec 2>&- ;; esac
        exec "$delf" "$@"
    )
    status=$?
}

# The store in store/ is read again, and has $1 objects and edges.
stands() {
    for file in store/delf.journal store/delf.vault; do
        [ -e "$file" ] || continue
        if grep -q -a -E 'created|linked|deleting|idle|graph|object|load' "$file"; then
            wrong "$case_: printed text is in $file"
        fi
    done
    (cd store && "$delf" run --at 0 <../look >../seen 2>/dev/null) || wrong "$case_: the store is not read again: $(tail -n 1 seen)"
    rows=$(awk '$1 == "graph" { print $2 + $3 }' seen)
    [ "$rows" = "$1" ] || wrong "$case_: $rows rows stand, and not $1"
}

for closed in none 0 1 2 01 02 12 012; do
    case_="run with $closed closed"
    run_closed "$closed" run --at 0
    case $closed in
        *0*)
            [ "$status" = 3 ] || wrong "$case_: status $status, and not 3"
            [ ! -e store/delf.journal ] || wrong "$case_: a store was made"
            ;;
        *1*)
            # The first line that is put fails, and its command is made.
            [ "$status" = 4 ] || wrong "$case_: status $status, and not 4"
            stands 1
            ;;
        *)
            [ "$status" = 0 ] || wrong "$case_: status $status, and not 0"
            [ "$(head -n 1 printed)" = '0 created 1' ] || wrong "$case_: it printed $(head -n 1 printed)"
            stands 0
            ;;
    esac
    echo "ok: $case_: status $status"
done

# A made script reads nothing. All its entries are made before its line is put.
run_closed none load 8
[ "$status" = 0 ] || wrong "load: status $status"
size=$(wc -c <store/delf.journal)
for closed in 0 1 2 01 02 12 012; do
    case_="load 8 with $closed closed"
    run_closed "$closed" load 8
    case $closed in
        *1*) [ "$status" = 4 ] || wrong "$case_: status $status, and not 4" ;;
        *) [ "$status" = 0 ] || wrong "$case_: status $status, and not 0" ;;
    esac
    [ "$(wc -c <store/delf.journal)" = "$size" ] || wrong "$case_: the journal has $(wc -c <store/delf.journal) bytes, and not $size"
    if grep -q -a 'load' store/delf.journal store/delf.vault; then
        wrong "$case_: printed text is in the store"
    fi
    echo "ok: $case_: status $status, the journal has $size bytes"
done
