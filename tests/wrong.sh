#!/usr/bin/env bash
# Tries every wrong answer by itself, those of wrong/ and those of the gate, each on a copy of its crate, over crates that are proved
# already. One passes where the checker refuses it because a fact fails; it fails where it is accepted, where it does not reach the
# checker, and where all that it breaks is the shape of the proof, which shows nothing.
#   tests/wrong.sh             all crates, as many at a time as there are processors, or as JOBS says
#   tests/wrong.sh CRATE ..    the wrong answers of these
# The logs are in build/wrong/CRATE. Its last line is 'N passed, M failed'.
set -u
cd "$(dirname "$0")/.." || exit 2
. tests/edits.sh
work=$(mktemp -d) || exit 2
trap 'rm -rf "$work"' EXIT

# try CRATE EDIT NAME PLACE LAW: a line of it
try() {
    local log=build/wrong/$1/$3 why
    sources "$1" "$work/$1"
    if ! why=$(apply "$2" "$3" "$work/$1/crates/$1"); then
        echo "FAILED: $1/$3: $why"
        return
    fi
    check_in "$work/$1" "$1" "$log"
    if why=$(refused "$log" "$1" "$4" "$5"); then echo "ok: $1/$3"; else echo "FAILED: $1/$3 $why ($log)"; fi
}

# A repository outside of this one, with the crate and those that it stands on: the checker keeps there what an edit leaves as it was, so
# that each edit costs seconds.
try_crate() {
    local edit name place law
    rm -rf "build/wrong/$1"
    mkdir -p "build/wrong/$1"
    room "$1" "$work/$1"
    if ! check_in "$work/$1" "$1" "build/wrong/$1/as-it-is"; then
        echo "FAILED: $1 is not proved as it is (build/wrong/$1/as-it-is)"
        return
    fi
    for edit in $(edits_of "$1"); do
        while read -r name place law; do try "$1" "$edit" "$name" "$place" "$law"; done < <(answers_in "$edit")
    done
    rm -rf "${work:?}/$1"
}

if [ $# -eq 0 ]; then
    for crate in crates/*/; do
        crate=$(basename "$crate")
        [ -z "$(edits_of "$crate")" ] || set -- "$@" "$crate"
    done
fi
asked=0
for crate; do
    here=$(for edit in $(edits_of "$crate"); do answers_in "$edit"; done | wc -l)
    [ "$here" -gt 0 ] || fails "$crate has no wrong answers"
    asked=$((asked + here))
done
[ "$failed" -eq 0 ] || { counted; exit 1; }
for crate; do
    while [ "$(jobs -rp | wc -l)" -ge "${JOBS:-$(nproc)}" ]; do wait -n; done
    try_crate "$crate" | tee -a "$work/results" &
done
wait
passed=$(grep -c '^ok' "$work/results")
failed=$(grep -c '^FAILED' "$work/results")
[ $((passed + failed)) -eq "$asked" ] || fails "of $asked wrong answers $((passed + failed)) were tried"
counted
