#!/bin/sh
# Every command of the README's table of the desk, as a newcomer would type it: readme.sh PATH-OF-DESK, from the
# repository's folder. Each is done, in a folder of its own.
desk=$(realpath "$1") || exit 2
readme=$(realpath README.md) || exit 2
. tests/desk-lib.sh
ln -s "$examples" examples

sed -n '/^## The desk$/,/^## /p' "$readme" | grep '^|' | grep -o '`desk [^`]*`' | tr -d '`' \
    | sed -e 's|BOOK|examples/dispatcher.book|' -e 's|SCRIPT|examples/dispatcher.script|' >commands
said='the README'
if [ "$(wc -l <commands)" -ge 12 ]; then ok; else wrong "only $(wc -l <commands) commands are found in the README"; fi
while read -r name words; do
    said="$name $words"
    # shellcheck disable=SC2086
    if "$desk" $words >out 2>err </dev/null; then ok; else wrong "$said: status $?"; cat err; fi
    if [ -s out ]; then ok; else wrong "$said: nothing is said"; fi
    quiet
done <commands

echo "$passed passed, $failed failed"
[ "$failed" = 0 ]
