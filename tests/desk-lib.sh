# What the tests of the desk command share; sourced from the repository's folder by a test that has put the command's
# path into $desk. Works in a folder of its own, from here on.
examples=$(realpath examples) || exit 2
work=$(mktemp -d) || exit 2
trap 'rm -rf "$work"' EXIT
cd "$work" || exit 2
passed=0
failed=0

ok() {
    passed=$((passed + 1))
}

wrong() {
    failed=$((failed + 1))
    echo "FAILED $*"
}

# ends STATUS WORDS...: runs desk with the words; its output is kept in out and err for the checks after it.
ends() {
    wanted=$1
    shift
    "$desk" "$@" >out 2>err
    got=$?
    if [ "$got" = "$wanted" ]; then ok; else wrong "desk $*: status $got, not $wanted"; cat err; fi
    said="desk $*"
}

# says FILE TEXT: the last run's out or err holds the text.
says() {
    if grep -qF -- "$2" "$1"; then ok; else wrong "$said: no '$2' in std$1:"; cat "$1"; fi
}

quiet() {
    if [ -s err ]; then wrong "$said: something on stderr:"; cat err; else ok; fi
}

# The last run was refused before any work was done.
unbegun() {
    if [ -s out ]; then wrong "$said: something was done first:"; cat out; else ok; fi
}

# same FILE FILE
same() {
    if cmp -s "$1" "$2"; then ok; else wrong "$said: $1 and $2 differ"; fi
}

absent() {
    if [ -e "$1" ]; then wrong "$said: $1 is there"; else ok; fi
}

size_is() {
    if [ "$(wc -c <"$1")" -eq "$2" ]; then ok; else wrong "$said: $1 has $(wc -c <"$1") bytes, not $2"; fi
}

# No half-written file may stay behind.
no_parts() {
    if ls ./*.part-* >/dev/null 2>&1; then wrong "$said: a part is left behind"; else ok; fi
}

book=$examples/dispatcher.book
script=$examples/dispatcher.script
