#!/bin/bash
# kill.sh DELF [ROUNDS]: that no acknowledged entry is lost when the program is killed.
#
# DELF is the built program, crates/delf/out/delf after `rt run` in that folder.
# Each round runs it in a folder of its own on a long script, kills it by signal 9 once some lines
# came out, starts it again on the same files, and looks for the entry of each line that came out whole: first for calls,
# then for steps. ROUNDS is 5 where it is not given. A round takes some seconds, and 40 at most. Needs bash and awk.
set -u
delf=$(realpath "${1:?kill.sh DELF [ROUNDS]}") || exit 2
rounds=${2:-5}
folder=$(mktemp -d) || exit 2
running=
trap '[ -n "$running" ] && kill -9 "$running" 2>/dev/null; rm -rf "$folder"' EXIT

schema='schema 1
window 100
object user directly
object photo by_any
edge owns user photo deep
script'

wrong() {
    echo "kill.sh: $*" >&2
    exit 1
}

# Users with one photo each: made, changed, linked, and each fourth one deleted by a job with its id.
calls() {
    echo "$schema"
    awk 'BEGIN { for (i = 1; i <= 20000; i++) {
        user = 2 * i - 1; photo = 2 * i
        print "create", user, "user \"first\""
        print "create", photo, "photo"
        print "update", user, "\"second\""
        print "link owns", user, photo
        if (i % 4 == 0) print "delete", user, "job", user
    } }'
}

steps() {
    echo "$schema"
    awk 'BEGIN { for (i = 1; i <= 20000; i++) print "work 1" }'
}

look() {
    echo "$schema"
    echo "jobs"
    echo "show"
}

# Runs the document in the file $1, and kills it once $2 lines are in the file $4 and $3 hundredths of a second are over.
run_and_kill() {
    (cd "$folder/store" && exec "$delf" run --at 0) <"$1" >"$4" 2>/dev/null &
    running=$!
    for turn in $(seq 1500); do
        [ "$turn" -gt "$3" ] && [ "$(wc -l <"$4")" -ge "$2" ] && break
        sleep 0.01
    done
    kill -9 "$running" 2>/dev/null
    wait "$running" 2>/dev/null
    [ $? -eq 137 ] || wrong "it ended by itself after $(wc -l <"$4") lines: $(tail -n 1 "$4")"
    running=
    [ "$(wc -l <"$4")" -ge "$2" ] || wrong "no $2 lines came out in 15 seconds"
}

# What stands in the store, in the file $1.
run_look() {
    look >"$folder/look"
    (cd "$folder/store" && timeout 10 "$delf" run --at 0) <"$folder/look" >"$1" || wrong "the store is not read again: status $?, $(tail -n 1 "$1")"
}

# Each whole line of calls in $1 has its entry in what stands, $2; and no more than one call more was made.
find_calls() {
    awk -v lines="$(wc -l <"$1")" '
        function lost(what) { if (bad++ < 5) print "lost: " what }
        NR == FNR && $1 == "object" { birth[$2] = $5; payload[$2] = $6; owner[$2] = $8; next }
        NR == FNR && $1 == "edge" { link[$3 " " $4] = $6; next }
        NR == FNR && $1 == "job" { start[$2] = $4; root[$2] = $6; next }
        NR == FNR && $1 == "graph" { stand = $2 + $3; next }
        NR == FNR || FNR > lines { next }
        { seen++ }
        $1 != FNR - 1 { lost("the order at " $0) }
        $2 == "created" { made++; if (birth[$3] != $1) lost($0) }
        $2 == "updated" { if (payload[$3] != "\"second\"") lost($0) }
        $2 == "linked" { made++; if (link[$4 " " $5] != $1) lost($0) }
        $2 == "deleting" { if (start[$5] != $1 || root[$5] != $3 || owner[$3] != $1) lost($0) }
        END {
            if (stand < made || stand > made + 1) lost(made " rows were made, and " stand " stand")
            if (!seen) lost("everything")
            exit bad > 0
        }' "$2" "$1"
}

# Each step told in a whole line of $1 took one row from the $2 that stood, as $3 stand now; and no more than one step more was made.
find_steps() {
    local told gone=$(($2 - $3))
    told=$(head -n "$(wc -l <"$1")" "$1" | grep -c -x 'work 1')
    [ "$gone" -ge "$told" ] && [ "$gone" -le $((told + 1)) ] || { echo "lost: $told steps were told, and $gone rows are gone"; return 1; }
}

rows_in() {
    awk '$1 == "graph" { print $2 + $3 }' "$1"
}

calls >"$folder/calls"
steps >"$folder/steps"
for round in $(seq "$rounds"); do
    rm -rf "$folder/store"
    mkdir "$folder/store"
    run_and_kill "$folder/calls" 100 $((20 + 13 * round)) "$folder/told"
    run_look "$folder/stands"
    find_calls "$folder/told" "$folder/stands" || wrong "round $round: a call that was acknowledged is lost"
    before=$(rows_in "$folder/stands")
    run_and_kill "$folder/steps" 5 "$round" "$folder/told"
    run_look "$folder/stands"
    stand=$(rows_in "$folder/stands")
    find_steps "$folder/told" "$before" "$stand" || wrong "round $round: a step that was told is lost"
    echo "round $round: $before rows stood after the first kill, $stand after the second"
done
echo "$rounds rounds, nothing lost"
