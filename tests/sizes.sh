#!/usr/bin/env bash
# The table of docs/TESTING.md, "Sizes and times", from the tree and from what the last tests/refused.sh left in build/refused: lines of
# code, definitions and proofs, wrong answers in the gate and in all, edits that try those of the gate, and the seconds that the checks with
# these edits took.
set -u
cd "$(dirname "$0")/.." || exit 2
. tests/edits.sh

lines() { find "$1" -name "$2" -exec cat {} + 2>/dev/null | wc -l; }
count() { for edit in "$@"; do [ ! -e "$edit" ] || answers_in "$edit"; done | wc -l; }

echo '| Crate | Code | Definitions | Proofs | Wrong answers: gate, all | Edits | Edits, s |'
echo '|---|---|---|---|---|---|---|'
for crate in $(sed -n 's/^\([a-z0-9_]*\).*/\1/p' crates.txt); do
    dir=crates/$crate
    edits=$(find "$dir/must-fail" -name '*.edit' 2>/dev/null | wc -l)
    seconds=$(cat "build/refused/$crate/seconds" 2>/dev/null || echo 0)
    echo "| \`$crate\` | $(lines "$dir/src" '*.rt') | $(lines "$dir/specs" '*.antt') | $(lines "$dir/proofs" '*.antt') |" \
        "$(count "$dir"/must-fail/*.edit), $(count $(edits_of "$crate")) | $edits | $seconds |"
done | awk '
    { print }
    {
        gsub(/[|,`]/, " ")
        for (i = 2; i <= 8; i++) sum[i] += $i
    }
    END { printf "| all | %d | %d | %d | %d, %d | %d | %d |\n", sum[2], sum[3], sum[4], sum[5], sum[6], sum[7], sum[8] }'
