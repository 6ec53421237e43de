#!/bin/sh
# expected.sh FOLDER: makes stdin, the programs of words.txt (program, address, word; NOP in every other word), and stdout, by the search
# under second/, which executes each word, in FOLDER. Wants build/second/writers: make -C second.
set -eu
mkdir -p "$1"
out=$(cd "$1" && pwd)
cd "$(dirname "$0")"
scratch=$(mktemp -d)
trap 'rm -r "$scratch"' EXIT
: >"$out/stdin"
: >"$out/stdout"
for p in 0 1 2 3; do
    # each byte as an octal escape, which printf writes
    printf '%b' "$(awk -v p=$p '
        function octal(h) { n = (index(d, substr(h, 1, 1)) - 1) * 16 + index(d, substr(h, 2, 1)) - 1; return sprintf("\\0%03o", n) }
        BEGIN { d = "0123456789ABCDEF"; for (a = 0; a < 4096; a++) word[a] = "FFFF" }
        $1 == p { at = 0; for (k = 1; k <= 3; k++) at = at * 16 + index(d, substr($2, k, 1)) - 1; word[at] = $3 }
        END { for (a = 0; a < 4096; a++) printf "%s%s", octal(substr(word[a], 1, 2)), octal(substr(word[a], 3, 2)) }' words.txt)" >"$scratch/body"
    cat "$scratch/body" >>"$out/stdin"
    for cell in 020 021 07f 080 08f 0a0 16f 300 348 358 36d 01f 170 10020; do
        echo "program $p, cell $cell"
        ../../build/second/writers "$scratch/body" "$cell" 2>&1 | sed 's/^writers: //' | tr A-F a-f
    done >>"$out/stdout"
done
