#!/bin/sh
# Tells in one line which of the commands it is given are not here, and fails: missing.sh COMMANDS... It is silent where
# all are.
missing=
for command in "$@"; do
    command -v "$command" >/dev/null 2>&1 && continue
    [ "$command" != rt ] || command='the Rattle kit (rt)'
    missing=$missing${missing:+, }$command
done
[ -z "$missing" ] || { echo "missing here: $missing; README.md, 'Run it', says what is needed"; exit 1; }
