#!/bin/sh
# one_program.sh DELF: that one program has a store at a time, and that the end of a program gives the store back, also by a kill.
#
# DELF is the built program. Run it as `sh checks/one_program.sh crates/delf/out/delf`. It takes some seconds and ends by itself.
# A first run is held in the middle: it prints into a pipe that is full. A second one in the same folder has to print
# `down at 0`, end with status 6, and leave both files as they are. Then the first one is killed, and a third run has to find
# what was acknowledged. At last the vault is taken away from a locked store: a second run must not make it.
set -u
delf=$(realpath "${1:?one_program.sh DELF}") || exit 2
folder=$(mktemp -d) || exit 2
running=
trap '[ -n "$running" ] && kill -9 "$running" 2>/dev/null; rm -rf "$folder"' EXIT
cd "$folder" || exit 2
mkdir store || exit 2

wrong() {
    echo "one_program.sh: $*" >&2
    exit 1
}

schema='schema 1
window 100
object user directly
object photo by_any
edge owns user photo deep
script'
{
    echo "$schema"
    awk 'BEGIN { for (i = 1; i <= 20; i++) print "create", i, "user"; for (i = 1; i <= 20000; i++) print "show" }'
} >long
printf '%s\ncreate 100 user\nshow\n' "$schema" >other
printf '%s\nshow\n' "$schema" >look

# A run in the store, over the document $1.
run() {
    (cd store && exec "$delf" run --at 0) <"$1"
}

# The run of the document `other` is refused, and touches nothing.
refused() {
    ls -l --time-style=full-iso store >before
    cat store/* | cksum >>before
    run other >printed 2>noise
    status=$?
    [ "$status" = 6 ] || wrong "$1: status $status, and not 6"
    [ "$(cat printed)" = 'down at 0' ] || wrong "$1: it printed $(head -n 1 printed)"
    ls -l --time-style=full-iso store >after
    cat store/* | cksum >>after
    cmp -s before after || wrong "$1: the store was touched: $(diff before after)"
    echo "ok: $1: status 6, and the store is untouched"
}

mkfifo lines
(cd store && exec "$delf" run --at 0) <long >lines 2>noise &
running=$!
exec 8<lines
# The lines of its calls come out, and then it stands, since nobody reads on.
for turn in 1 2 3 4 5 6 7 8 9 10 11 12 13 14 15 16 17 18 19; do
    read -r line <&8
    [ "$line" = "$((turn - 1)) created $turn" ] || wrong "the first run printed $line"
done
sleep 0.5
kill -0 "$running" 2>/dev/null || wrong 'the first run ended by itself'
refused 'a second run beside a first one'
refused 'a third one beside it'

# The pipe stays open, so that nothing but the kill ends it.
kill -9 "$running"
wait "$running" 2>/dev/null
[ $? = 137 ] || wrong 'the first run was not killed'
running=
run look >printed || wrong "after the kill: status $?"
exec 8<&-
[ "$(head -n 1 printed)" = 'graph 20 0' ] || wrong "after the kill: $(head -n 1 printed)"
echo "ok: after a kill the store is free, with the 20 objects that were acknowledged"

# The lock alone, held by a shell.
rm store/delf.vault
exec 9>>store/delf.journal
flock -n 9 || wrong 'the lock is not free'
refused 'a locked journal without a vault'
[ ! -e store/delf.vault ] || wrong 'the refused run made a vault'
exec 9>&-
rm -rf store
mkdir store
run other >printed || wrong "in a folder of its own: status $?"
[ "$(head -n 1 printed)" = '0 created 100' ] || wrong "in a folder of its own: $(head -n 1 printed)"
echo "ok: alone in its folder it runs"
