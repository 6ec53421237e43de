#!/bin/sh
# Tests of make install and make uninstall: install.sh COMPILE-C COMPILE-C++ LINK-TO ARCHIVE, from the repository's
# folder, the first three as commands that take the rest of their words behind them. Programs outside the repository are
# compiled against what is installed, as pkg-config tells, or, where there is none, as galhoveia.pc says.
compile_c=$1 compile_cpp=$2 link_to=$3 archive=$4
repository=$(pwd)
work=$(mktemp -d) || exit 2
trap 'rm -rf "$work"' EXIT
passed=0
failed=0

check() {
    if "$@"; then passed=$((passed + 1)); else failed=$((failed + 1)); echo "FAILED $said: $*"; fi
}

runs() {
    said=$*
    "$@" >"$work/out" 2>"$work/err"
    status=$?
}

ends() {
    wanted=$1
    shift
    runs "$@"
    check [ "$status" = "$wanted" ]
    [ "$status" = "$wanted" ] || cat "$work/out" "$work/err"
}

says() {
    check grep -qF -- "$2" "$work/$1"
}

lacks() {
    check [ ! -e "$1" ]
}

# flags PREFIX OPTIONS...: what pkg-config says of the library below a prefix.
flags() {
    pc=$1/lib/pkgconfig/galhoveia.pc
    shift
    if command -v pkg-config >/dev/null 2>&1; then
        PKG_CONFIG_PATH=$(dirname "$pc") pkg-config "$@" galhoveia
        return
    fi
    (
        eval "$(grep '^[a-z]*=' "$pc")"
        IFS= # a blank in the prefix ends no word
        for option in "$@"; do
            case $option in
            --cflags) eval "printf \" '%s'\" $(sed -n 's/^Cflags: //p' "$pc")" ;;
            --libs) eval "printf \" '%s'\" $(sed -n 's/^Libs: //p' "$pc")" ;;
            --modversion) sed -n 's/^Version: //p' "$pc" ;;
            esac
        done
    )
}

installed='bin/desk include/galhoveia.h lib/libgalhoveia.a lib/pkgconfig/galhoveia.pc share/man/man1/desk.1
    share/man/man3/galhoveia.3 share/galhoveia/examples/dispatcher.book share/galhoveia/examples/dispatcher.script'

# ---- Below a prefix ----

echo "install: below a prefix"
prefix=$work/usr
mkdir -p "$prefix/bin" "$prefix/share/galhoveia"
echo kept >"$prefix/bin/other"
ends 0 make -s install LIB="$archive" PREFIX="$prefix"
for file in $installed; do
    check [ -f "$prefix/$file" ]
    says out "$prefix/$file"
done
check [ -x "$prefix/bin/desk" ]
said='the modes of what is installed'
check [ -z "$(find "$prefix/include" "$prefix/lib" "$prefix/share" -type f ! -perm 644)" ]
check cmp -s desk/galhoveia.h "$prefix/include/galhoveia.h"
check cmp -s "$archive" "$prefix/lib/libgalhoveia.a"
version=$(sed -n 's/^#define GALHOVEIA_VERSION *"\(.*\)".*/\1/p' desk/galhoveia.h)
said='the version that pkg-config tells'
check [ "$(flags "$prefix" --modversion)" = "$version" ]

echo "install: the desk that is installed"
cd "$work" || exit 2
ends 0 "$prefix/bin/desk" --version
says out "galhoveia $version"
ends 0 "$prefix/bin/desk" demo "$prefix/share/galhoveia/examples"
says out 'level 6  (digits 1,0; ground code 2)'
cp out demo.installed
# Without a folder, where there is none of that name, it takes the examples that are installed.
ends 0 "$prefix/bin/desk" demo
says out 'level 6  (digits 1,0; ground code 2)'
ends 0 env PATH="$prefix/bin:$PATH" desk demo
says out 'level 6  (digits 1,0; ground code 2)'
(cd "$repository" && build/plain/desk demo examples) | sed "s|examples/|$prefix/share/galhoveia/examples/|" >demo.built
check cmp -s demo.installed demo.built

# ---- A program outside the repository ----

echo "install: programs outside the repository"
cat >level.c <<'END'
#include <galhoveia.h>
#include <stdio.h>

int main(void)
{
    static const uint8_t body[GALHOVEIA_LEVEL_BYTES] = {0x00, 0x20, 0x00, 0x21, 2};
    uint8_t memory[GALHOVEIA_MEMORY_BYTES] = {0};
    uint64_t value = 0;
    int32_t level = 0;

    memory[0x020] = 1;
    if (galhoveia_level(memory, sizeof memory, body, sizeof body, &level, &value) != GALHOVEIA_DONE)
        return 1;
    printf("level %ld by galhoveia %s\n", (long)level, GALHOVEIA_VERSION);
    memory[0x021] = 8;
    return galhoveia_level(memory, sizeof memory, body, sizeof body, &level, &value) == GALHOVEIA_DIGIT && value == 1
               ? 0 : 1;
}
END
cp level.c level.cpp

# compiled BY SOURCE PREFIX: by the command, with what pkg-config tells of the prefix.
compiled() {
    said="$1 $2 with what pkg-config tells of $3"
    (
        cd "$repository" && eval "$1 -Wall -Wextra -Werror -c -o '$work/level.o' '$work/$2' $(flags "$3" --cflags)" \
            && eval "$link_to '$work/level' '$work/level.o' $(flags "$3" --libs)"
    ) >out 2>&1
    check [ "$?" = 0 ]
    ends 0 ./level
    says out "level 6 by galhoveia $version"
    rm -f level level.o
}
compiled "$compile_c -std=c11" level.c "$prefix"
compiled "$compile_cpp -std=c++11" level.cpp "$prefix"

# ---- Manual pages ----

echo "install: manual pages"
page=$prefix/share/man/man1/desk.1
said=$page
"$prefix/bin/desk" --help | sed -n 's/^  desk \(book [a-z]*\|[a-z-]*\).*/\1/p' >commands
check [ "$(wc -l <commands)" -gt 10 ]
while read -r command; do check grep -qx ".SS \"desk $command\"" "$page"; done <commands
page=$prefix/share/man/man3/galhoveia.3
said=$page
sed -n 's/^uint32_t \(galhoveia_[a-z_]*\)(.*/\1/p' "$repository/desk/galhoveia.h" >calls
check [ "$(wc -l <calls)" -gt 10 ]
while read -r call; do check grep -qx ".SS $call" "$page"; done <calls
# Whole sentences of the header stand in the page, line by line.
sed -e 's/^\\&//' -e 's/\\-/-/g' -e 's/\\e/\\/g' "$page" >plain
awk '/^\/\*/ { inside = 1 } inside { print } /\*\/$/ { inside = 0 }' "$repository/desk/galhoveia.h" \
    | sed -e 's/^\/\* //' -e 's/^   //' -e 's/ *\*\/$//' -e '1d' | grep . >sentences
check [ "$(wc -l <sentences)" -gt 100 ]
check [ -z "$(grep -vxFf plain sentences)" ]
# So does what is said of each constant, in one line.
awk '/^enum \{$/ { inside = 1; next } /^\};/ { inside = 0 } inside { print }' "$repository/desk/galhoveia.h" \
    | awk '{ sub(/^ */, "") } { text = text " " $0 } /\*\/$/ { print text; text = "" }' \
    | sed -n 's/.*\/\* \(.*\) \*\/$/\1/p' >said_of
check [ "$(wc -l <said_of)" -gt 40 ]
check [ -z "$(grep -vxFf plain said_of)" ]
sed -n 's/^ *\(#define \)\{0,1\}\(GALHOVEIA_[A-Z0-9_]*\)[ ,=].*/\2/p' "$repository/desk/galhoveia.h" \
    | grep -v '^GALHOVEIA_VERSION$' >constants
check [ "$(wc -l <constants)" -gt 60 ]
while read -r constant; do check grep -q "^\.B $constant = " "$page"; done <constants
if command -v groff >/dev/null 2>&1; then
    for page in man1/desk.1 man3/galhoveia.3; do
        runs groff -man -ww -Tutf8 "$prefix/share/man/$page"
        check [ "$status" = 0 ]
        check [ ! -s err ]
    done
fi

# ---- Taken away again ----

echo "install: taken away again"
cd "$repository" || exit 2
ends 0 make -s uninstall LIB="$archive" PREFIX="$prefix"
said="make uninstall PREFIX=$prefix"
check [ "$(find "$prefix" -type f)" = "$prefix/bin/other" ]
lacks "$prefix/share/galhoveia"
ends 0 make -s uninstall LIB="$archive" PREFIX="$prefix"

# ---- In a package's folder; a prefix with a blank; no path ----

echo "install: in a package's folder"
ends 0 make -s install LIB="$archive" DESTDIR="$work/package" PREFIX="/nowhere at all/lift"
for file in $installed; do check [ -f "$work/package/nowhere at all/lift/$file" ]; done
lacks "/nowhere at all"
check grep -qxF 'prefix=/nowhere\ at\ all/lift' "$work/package/nowhere at all/lift/lib/pkgconfig/galhoveia.pc"
ends 0 make -s uninstall LIB="$archive" DESTDIR="$work/package" PREFIX="/nowhere at all/lift"
check [ -z "$(find "$work/package" -type f)" ]
ends 0 make -s install LIB="$archive" PREFIX="$work/with blank"
cd "$work" || exit 2
compiled "$compile_c -std=c11" level.c "$work/with blank"
cd "$repository" || exit 2
runs make -s install LIB="$archive" PREFIX=relative
check [ "$status" != 0 ]
says err "PREFIX is a path from / on, not 'relative'"
lacks relative
# Where nothing may be written, it is told and make fails.
echo taken >"$work/file"
runs make -s install LIB="$archive" PREFIX="$work/file"
check [ "$status" != 0 ]
check [ -s "$work/err" ]

echo "$passed passed, $failed failed"
[ "$failed" = 0 ]
