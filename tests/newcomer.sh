#!/bin/sh
# What a newcomer is told whose machine lacks something: one line that names it. PATH is a folder of links to the tools
# that are here, in which the compilers and the prover are stand-ins, so that nothing is ever built or proved.
tools=$(mktemp -d) || exit 2
trap 'rm -rf "$tools"' EXIT
passed=0
failed=0

# Of two tools with one name the first on PATH is taken, and ln complains of the second.
IFS=:
for folder in $PATH; do ln -s "$folder"/* "$tools" 2>/dev/null; done
unset IFS

# without TOOLS...: the folder has all but these.
without() {
    for tool in rt gcc g++; do
        rm -f "$tools/$tool"
        printf '#!/bin/sh\necho "%s was started"\nexit 1\n' "$tool" >"$tools/$tool"
        chmod +x "$tools/$tool"
    done
    for tool in "$@"; do rm "$tools/$tool"; done
}

check() {
    if "$@"; then passed=$((passed + 1)); else failed=$((failed + 1)); echo "FAILED $said: $*"; echo "$output"; fi
}

# runs COMMAND...: as in a shell of its own, outside of the make that runs the tests.
runs() {
    said=$*
    output=$(env -i PATH="$tools" "$@" 2>&1)
    status=$?
}

names() {
    case $output in *"missing here: $1; README.md, 'Run it',"*) ;; *) false ;; esac
}

# is_told NAMES COMMAND...: one line comes out, with the names, and the command fails.
is_told() {
    wanted=$1
    shift
    runs "$@"
    check names "$wanted"
    check [ "$(printf '%s\n' "$output" | wc -l)" -eq 1 ]
    check [ "$status" -ne 0 ]
}

every_way() {
    is_told "$1" make
    is_told "$1" make demo
    is_told "$1" make test
    is_told "$1" make test-sanitized
    is_told "$1" make fuzz
    is_told "$1" make wrong
    is_told "$1" make bench
    is_told "$1" ./check
}

without
runs tests/missing.sh rt gcc g++ make
check [ "$status$output" = 0 ]
without rt
every_way 'the Rattle kit (rt)'
without gcc
every_way gcc
without g++
every_way g++
without rt gcc g++
every_way 'the Rattle kit (rt), gcc, g++'
runs make -n clean
check [ "$status$output" = '0rm -rf build' ]
runs make -n uninstall
check [ "$status" = 0 ]
without make
is_told make ./check

echo "$passed passed, $failed failed"
[ "$failed" = 0 ]
