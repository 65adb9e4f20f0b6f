#!/bin/sh
# Passes every test and proof of the repository, and shows what each part took of a processor.
#
# usage: ./test.sh [--unproved]
#
# First comes all that needs no proof, in minutes, with the self-tests last: with --unproved that is
# all. Then `rt ci`, the gate, and the wrong bodies that the prover tries. The parts are the scripts
# in scripts/, each of which runs by itself too, and their self-tests: at most as many at once as
# scripts/lanes says. A part fails too if no line of it has its words. The reference is left out if
# there is no rustdoc that was tried.
# RT_CI is empty, or `--anew` for a `rt ci` that keeps what passed. The last line is that of the gate,
# or says what failed, or that nothing is proved yet.
set -u
cd "$(dirname "$0")" || exit 2
case "$*:${RT_CI:-}" in
: | :--anew | --unproved:) ;;
*)
    echo "usage: ./test.sh [--unproved]; RT_CI is empty, or --anew without --unproved"
    exit 2
    ;;
esac
work=$(mktemp -d) || exit 2
trap 'rm -rf "$work"' EXIT
mkfifo "$work/places"
exec 3<>"$work/places"
lanes=$(scripts/lanes)
# A line for each part that may run at once.
yes | head -n "$lanes" >&3
passed=0 failed=

# Runs a part, with what it says in a file, and notes how it ended and what it took.
run_part() (
    name=$1
    shift
    echo "$(date +%H:%M) $name begins"
    "$@" >"$work/$name" 2>&1
    echo $? >"$work/$name.status"
    times >"$work/$name.times"
    echo "$(date +%H:%M) $name ends"
)

# Waits for a place, and runs a part beside the others.
begin_part() {
    read -r place <&3
    {
        run_part "$@"
        echo "$place" >&3
    } &
}

# Prints how many seconds of a processor a part took, with all that it ran.
seconds_of() {
    tr ms '  ' <"$work/$1.times" | awk '{ sum += 60 * ($1 + $3) + $2 + $4 } END { printf "%.0f", sum }'
}

# Notes the row of a part for the table. It passes if its status is 0 and a line has these words.
judge_part() {
    result=passed
    grep -q "$2" "$work/$1" || result="FAILED: no line has '$2'"
    [ "$(cat "$work/$1.status")" = 0 ] || result=FAILED
    [ "$1 $(cat "$work/$1.status")" != "reference 3" ] || result='left out'
    case $result in passed) passed=$((passed + 1)) ;; FAILED*) failed="$failed $1" ;; esac
    printf '%7s  %-26s  %s\n' "$(seconds_of "$1")" "$1" "$result" >>"$work/table"
}

# Shows what a part said, and judges it.
show_part() {
    cat "$work/$1"
    judge_part "$@"
}

# Shows the table.
show_table() {
    cat "$work/table"
    awk '{ sum += $1 } END { printf "%7d  in all, or %.0f minutes\n", sum, sum / 60 }' "$work/table"
}

# Shows the table, and ends if a part failed.
end_if_failed() {
    [ -n "$failed" ] || return 0
    show_table
    echo "FAILED:$failed"
    exit 1
}

ends='tries end as they must$'
run_part documents scripts/documents
show_part documents ': all as the sources have it$'
run_part wrong-body-texts scripts/wrong-bodies --texts
show_part wrong-body-texts ': each text stands$'
run_part clauses scripts/clauses
show_part clauses ': each as it is kept$'
run_part calls scripts/model-tests --calls
show_part calls ' public calls, each with the lines that make it$'
end_if_failed

begin_part builds scripts/programs --build "$work/built"
builds=$!
begin_part doc-tests scripts/doc-tests
begin_part refused-growths scripts/refused-growths
begin_part reference scripts/reference --self-test
begin_part vendor-self-test scripts/vendor --self-test
begin_part json-texts scripts/json-texts
begin_part json-limits scripts/json-limits
wait $builds
show_part builds '^programs: [1-9][0-9]* built with no proof$'
begin_part model-tests scripts/model-tests --from "$work/built"
begin_part programs scripts/programs --from "$work/built"
wait
show_part model-tests '^model-tests: [1-9].* requests refused: as the model has it$'
show_part programs '^programs: [1-9].*: all as they should$'
show_part refused-growths '^refused-growths: [1-9].* growths; leaks were looked for in each$'
show_part doc-tests '^doc-tests: [2-9][0-9][0-9] examples of [1-9][0-9]* files passed, '
show_part json-texts '^json-texts: [1-9].*: no difference$'
show_part json-limits '^json-limits: .* 127 levels .*: as they should$'
show_part reference "^reference: [1-9][0-9]* $ends"
show_part vendor-self-test "^vendor: [1-9][0-9]* $ends"
end_if_failed

for name in documents clauses doc-tests model-tests refused-growths programs json-texts \
    json-limits; do
    begin_part "$name-self-test" "scripts/$name" --self-test
done
wait
show_part documents-self-test '^documents finds each planted fault$'
show_part clauses-self-test '^clauses finds each of [1-9][0-9]* changes$'
show_part doc-tests-self-test '^doc-tests finds each of [1-9][0-9]* planted faults$'
show_part model-tests-self-test "^model-tests: [1-9][0-9]* $ends"
show_part refused-growths-self-test "^refused-growths: [1-9][0-9]* $ends"
show_part programs-self-test "^programs: [1-9][0-9]* $ends"
show_part json-texts-self-test "^json-texts: [1-9][0-9]* $ends"
show_part json-limits-self-test "^json-limits: [1-9][0-9]* $ends"
end_if_failed
show_table
echo "$passed passed, 0 failed; nothing is proved yet"
[ "$*" != --unproved ] || exit 0

run_part wrong-bodies-self-test nice scripts/wrong-bodies --self-test &
echo "$(date +%H:%M) gate begins"
(
    RT_JOBS=${RT_JOBS:-$lanes} rt ci ${RT_CI:-} 2>&1
    echo $? >"$work/gate.status"
    times >"$work/gate.times"
) | tee "$work/gate"
wait
judge_part gate '^rt: ok; handles allowed: none'
show_part wrong-bodies-self-test '^wrong-bodies passes good files, and fails on each of [1-9]'
end_if_failed
run_part wrong-bodies-gate scripts/wrong-bodies --file gate
show_part wrong-bodies-gate '^wrong-bodies: [1-9][0-9]* refused by their clause, '
end_if_failed
show_table
tail -n 1 "$work/gate"
