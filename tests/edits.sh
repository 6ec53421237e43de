# What the tests know of an edit file and of a check's log; read by tests/wrong.sh, refused.sh, statements.sh, sizes.sh and
# bench/native.sh.
# A file under wrong/CRATE or crates/CRATE/must-fail holds one wrong answer, named as the file, or several, each behind a line
# 'wrong: NAME PLACE [LAW]': the function, or the file of laws, whose proof must miss a fact, and which one where two wrong answers meet.

# edits_of CRATE: its edit files
edits_of() {
    find "wrong/$1" "crates/$1/must-fail" -maxdepth 1 -name '*.edit' 2>/dev/null | LC_ALL=C sort
}

# answers_in EDIT: a line 'NAME PLACE LAW' for each wrong answer, with - for what is not said
answers_in() {
    awk -v name="$(basename "$1" .edit)" '
        /^wrong: / { print $2, $3, (NF > 3 ? $4 : "-"); several = 1 }
        END { if (!several) print name, "-", "-" }' "$1"
}

# apply EDIT NAME DIR: one wrong answer, or for - all of them, in a copy of its crate; each 'old:' text stands once in its file, and the
# 'new:' text takes its place. Says what is wrong with the edit where it cannot be done.
apply() {
    NAME=$2 DIR=$3 awk '
        function bad(why) { print why; failed = 1; exit 1 }
        BEGIN { on = 1 }
        /^wrong: / { on = ENVIRON["NAME"] == "-" || $2 == ENVIRON["NAME"] }
        /^file: / { path = ENVIRON["DIR"] "/" substr($0, 7) }
        /^old: / { old = substr($0, 6) }
        /^new:/ && on {
            new = substr($0, 5)
            sub(/^ /, "", new)
            if (!(path in text)) {
                while ((getline line <path) > 0) text[path] = text[path] line "\n"
                close(path)
            }
            at = index(text[path], old)
            if (old == "" || !at) bad("an old text is not in its file")
            rest = substr(text[path], at + length(old))
            if (index(rest, old)) bad("an old text stands twice in its file")
            text[path] = substr(text[path], 1, at - 1) new rest
            pairs++
        }
        END {
            if (failed) exit 1
            if (!pairs) bad("it has no old and new text")
            for (path in text) printf "%s", text[path] >path
        }' "$1"
}

# lines_below CRATE: the lines of crates.txt of the crate and of those that it stands on
lines_below() {
    awk -v crate="$1" '
        function need(name, names, n, i) {
            if (name in needed || !(name in line)) return
            needed[name] = 1
            print line[name]
            n = split(below[name], names, " ")
            for (i = 1; i <= n; i++) need(names[i])
        }
        /^[a-z0-9_]/ {
            name = $1
            sub(/:.*/, "", name)
            line[name] = $0
            sub(/^[^:]*:/, "")
            sub(/#.*/, "")
            below[name] = $0
        }
        END { need(crate) }' crates.txt
}

# sources CRATE ROOM: the crate as it is, in place of what stands there; what checks kept stays
sources() {
    local part
    mkdir -p "$2/crates/$1"
    for part in src specs proofs; do
        rm -rf "${2:?}/crates/$1/$part"
        [ ! -d "crates/$1/$part" ] || cp -R "crates/$1/$part" "$2/crates/$1/"
    done
}

# room CRATE ROOM: a repository of the crate and of those that it stands on, with what checks kept of them, so that a check there begins
# with it. It lies outside of this one, which rt would read it with.
room() {
    local crate
    rm -rf "$2"
    mkdir -p "$2/crates"
    lines_below "$1" >"$2/crates.txt"
    for crate in $(sed 's/[: ].*//' "$2/crates.txt"); do
        sources "$crate" "$2"
        [ ! -d "crates/$crate/out/rlib" ] || { mkdir "$2/crates/$crate/out" && cp -Rp "crates/$crate/out/rlib" "$2/crates/$crate/out/"; }
    done
    [ ! -d "crates/$1/out/incremental" ] || { mkdir -p "$2/crates/$1/out" && cp -Rp "crates/$1/out/incremental" "$2/crates/$1/out/"; }
}

# check_in ROOM CRATE LOG: checks the crate there, on one processor
check_in() {
    (cd "$1/crates/$2" && rt check --jobs 1) >"$3" 2>&1 </dev/null
}

# facts LOG CRATE PLACE LAW: the facts that a check missed there, or for - anywhere: a goal of a function that the search did not prove or
# whose answer failed, or a law. What only follows from another error is none, and neither is an answer or a law that names what is not
# there: that is the shape of a proof. Where other answers of a function fail, what the search did not prove of it stands in notes above
# the function's line; they count for the goal that is named, since one whose answer has another name now is among them.
facts() {
    {
        grep -E '^(\./)?proofs/[^ ]*\.antt:[0-9]+:[0-9]+: error: `|^fn [^ ]*: no proof: .*did not prove `' "$1" |
            grep -vE 'was not admitted|has no `|has no field|is not in scope|is no name|: error: `[^ ]*_spec`'
        [ "$4" = - ] || awk '
            /^note: src\/.*: it is not proved that/ { told[++n] = $0 }
            /^fn / { for (i = 1; i <= n; i++) print $1, $2, "no proof: did not prove", told[i]; n = 0 }' "$1"
    } |
        if [ "$3" = - ]; then cat; else grep -E -e "^(\./)?proofs/${3//:://}(/Answers|/Proof)?\.antt:" -e "^fn $2::$3: no proof: "; fi |
        if [ "$4" = - ]; then cat; else grep -E -e ": error: \`$4\`:" -e "did not prove .*\`$4\`"; fi
}

# refused LOG CRATE PLACE LAW: whether a check refuses a wrong answer because a fact fails there; says what it does instead where not
refused() {
    # the last verdict is the crate's; those above it are of libraries that it stands on
    local verdict
    verdict=$(grep '^logic=' "$1" | tail -n 1)
    if [ "${verdict#logic=proved}" != "$verdict" ]; then
        echo 'is accepted'
    elif [ "${verdict#logic=not-proved}" = "$verdict" ]; then
        echo 'does not reach the prover'
    elif grep -qE '^(\./)?(src|specs)/[^ ]*: error: ([^`]|.*(is not in scope|has no field|is no name|operand is missing|expected the end|cannot continue))' "$1"; then
        echo 'cannot be read'
    elif [ -z "$(facts "$@")" ]; then
        echo "breaks no fact ($3 $4), or only the shape of the proof"
    else
        return 0
    fi
    return 1
}

# What a test counts, and how it ends: in a last line 'N passed, M failed'.
passed=0 failed=0
holds() {
    passed=$((passed + 1))
}
fails() {
    failed=$((failed + 1))
    echo "FAILED: $1"
}
counted() {
    echo "$passed passed, $failed failed"
    [ "$failed" -eq 0 ] && [ "$passed" -gt 0 ]
}
