#!/usr/bin/env bash
# Every public function of every library crate has an `ensures`, a row in docs/STATEMENTS.md and at least two wrong answers there; every
# row is of such a function; every wrong answer there has an edit, in wrong/ or in its crate's must-fail, and every edit is named there.
# Its last line is 'N passed, M failed'.
set -u
cd "$(dirname "$0")/.." || exit 2
. tests/edits.sh
# heads FILE..: a line 'NAME HEAD' for each public function: what it takes, gives and promises, in one line
heads() {
    cat "$@" | awk '
        match($0, /^pub (extern "C" )?fn [a-z_0-9]+/) { fn = substr($0, RSTART, RLENGTH); sub(/.* /, "", fn); head = ""; on = 1; sub(/extern "C" /, "") }
        on && /^\{/ { gsub(/[ \t]+/, " ", head); sub(/^ /, "", head); gsub(/\( /, "(", head); gsub(/,? \)/, ")", head); print fn, head; on = 0 }
        on { head = head " " $0 }'
}

for crate in crates/*/; do
    name=$(basename "$crate")
    if [ "$name" = host_c ]; then
        # the exports for C: each promises what the function of its name in host does
        calls=$(heads crates/host/src/*.rt)
        while read -r fn head; do
            if printf '%s\n' "$calls" | grep -qxF "$fn $head"; then holds; else fails "host_c: $fn does not say what host does of it"; fi
        done < <(heads "$crate"src/*.rt)
        # and there is one for each call that the header declares
        declared=$(grep -oE '^uint32_t galhoveia_[a-z_]+' desk/galhoveia.h | sed 's/.* //' | sort)
        if [ "$declared" = "$(heads "$crate"src/*.rt | sed 's/ .*//' | sort)" ]; then holds; else fails "host_c: the exports are not the header's calls"; fi
    fi
    section=$(awk -v s="## \`$name\`" '$0 == s { on = 1; next } /^## / { on = 0 } on' docs/STATEMENTS.md)
    for file in "$crate"src/*.rt; do
        module=$(basename "$file" .rt)
        # a program has no public function, and what stands in a private module is not public
        [ -e "$crate/src/main.rt" ] && break
        [ "$module" = lib ] || grep -q "^pub mod $module;" "$crate/src/lib.rt" || continue
        while read -r fn promised; do
            row="^| \`\([A-Za-z0-9_]*::\)*$fn\` | [^\`]"
            if ! printf '%s\n' "$section" | grep -q "$row"; then
                fails "$file: $fn has no row in docs/STATEMENTS.md"
            elif [ "$promised" != yes ]; then
                fails "$file: $fn has no ensures"
            elif [ "$(printf '%s\n' "$section" | grep -c "^| \`[a-z0-9_]*\` | \`\([A-Za-z0-9_]*::\)*$fn\` |")" -lt 2 ]; then
                fails "$file: $fn has fewer than two wrong answers in docs/STATEMENTS.md"
            else
                holds
            fi
        done < <(awk '
            match($0, /^[ \t]*pub (extern "C" )?fn [a-z_0-9]+/) { fn = substr($0, RSTART, RLENGTH); sub(/.* /, "", fn); has = "no"; head = 1 }
            head && /ensures/ { has = "yes" }
            head && /\{[ \t]*$/ { print fn, has; head = 0 }' "$file")
    done
    for row in $(printf '%s\n' "$section" | sed -n 's/^| `\([A-Za-z0-9_:]*\)` | [^`].*/\1/p'); do
        # a path begins with its module, and is of the crate's root where it has none
        module=$crate/src/${row%%::*}.rt
        [ -e "$module" ] || module=$crate/src/lib.rt
        if grep -qE "^[ \t]*pub (extern \"C\" )?fn ${row##*::}[(<]" "$module"; then
            holds
        elif awk -v trait="${row%%::*}" -v fn="${row##*::}" '
            $0 ~ "^pub trait " trait "[ :<]" { on = 1 }
            on && $0 ~ "^    fn " fn "[(<]" { found = 1 }
            /^}/ { on = 0 }
            END { exit !found }' "$module"; then
            # a public trait's function
            holds
        else fails "$name: $row has a row in docs/STATEMENTS.md and is no public function there"
        fi
    done
    for edit in $(edits_of "$name"); do
        # wrong answers that are tried together are told apart by where they are refused
        if [ -z "$(answers_in "$edit" | cut -d' ' -f2- | sort | uniq -d)" ]; then holds; else fails "$edit has two wrong answers of one place"; fi
    done
    named=$(printf '%s\n' "$section" | sed -n 's/^| `\([a-z0-9_]*\)` | `[A-Za-z0-9_:]*` |.*/\1/p' | sort)
    edits=$(for edit in $(edits_of "$name"); do answers_in "$edit"; done | cut -d' ' -f1 | sort)
    for label in $(printf '%s\n' $named $edits | sort -u); do
        if [ "$(printf '%s\n' $named | grep -cxF "$label")/$(printf '%s\n' $edits | grep -cxF "$label")" = 1/1 ]; then
            holds
        else
            fails "$name: $label is not one row of docs/STATEMENTS.md and one edit"
        fi
    done
done
for folder in wrong/*/; do
    if [ -d "crates/$(basename "$folder")" ]; then holds; else fails "$folder is of no crate"; fi
done
counted
