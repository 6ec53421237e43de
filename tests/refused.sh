#!/usr/bin/env bash
# Checks each crate with each edit of crates/*/must-fail, in a copy, and reads what the check says: every wrong answer of the gate is refused
# because a fact fails, where the edit says, and not only by the shape of a proof. rt ci tells of an edit no more than that it is refused.
#   tests/refused.sh             all crates, as many at a time as there are processors, or as JOBS says
#   tests/refused.sh CRATE ..    the edits of these
# The logs are in build/refused/CRATE, with the seconds that the checks took. They are quicker where rt check has kept what it proved.
# Its last line is 'N passed, M failed'.
set -u
cd "$(dirname "$0")/.." || exit 2
. tests/edits.sh
work=$(mktemp -d) || exit 2
trap 'rm -rf "$work"' EXIT

# try_crate CRATE: a line of each wrong answer
try_crate() {
    local crate=$1 logs=build/refused/$1 edit log why whole name place law began=$SECONDS
    rm -rf "$logs"
    mkdir -p "$logs"
    room "$crate" "$work/$crate"
    for edit in "crates/$crate/must-fail"/*.edit; do
        log=$logs/$(basename "$edit" .edit)
        sources "$crate" "$work/$crate"
        if whole=$(apply "$edit" - "$work/$crate/crates/$crate"); then
            whole=
            check_in "$work/$crate" "$crate" "$log"
        fi
        while read -r name place law; do
            if [ -n "$whole" ]; then
                echo "FAILED: $crate/$name: $whole ($edit)"
            elif why=$(refused "$log" "$crate" "$place" "$law"); then
                echo "ok: $crate/$name"
            else
                echo "FAILED: $crate/$name $why ($log)"
            fi
        done < <(answers_in "$edit")
    done
    echo $((SECONDS - began)) >"$logs/seconds"
    rm -rf "${work:?}/$crate"
}

if [ $# -eq 0 ]; then
    # the uppermost first, which take longest
    for crate in $(sed -n 's/^\([a-z0-9_]*\).*/\1/p' crates.txt | tac); do
        [ -z "$(find "crates/$crate/must-fail" -name '*.edit' 2>/dev/null)" ] || set -- "$@" "$crate"
    done
fi
asked=0
for crate; do
    for edit in "crates/$crate/must-fail"/*.edit; do
        if [ -e "$edit" ]; then asked=$((asked + $(answers_in "$edit" | wc -l))); else fails "$crate has no edits"; fi
    done
done
[ "$failed" -eq 0 ] || { counted; exit 1; }
for crate; do
    while [ "$(jobs -rp | wc -l)" -ge "${JOBS:-$(nproc)}" ]; do wait -n; done
    try_crate "$crate" >>"$work/results" &
done
wait
grep '^FAILED' "$work/results"
passed=$(grep -c '^ok' "$work/results")
failed=$(grep -c '^FAILED' "$work/results")
[ $((passed + failed)) -eq "$asked" ] || fails "of $asked wrong answers $((passed + failed)) were tried"
counted
