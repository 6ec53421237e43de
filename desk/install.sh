#!/bin/sh
# Puts the desk and the library below a prefix, in a package's folder if DESTDIR is not empty, or takes away what it has
# put there: install.sh install|uninstall PREFIX DESTDIR ARCHIVE, from the repository's folder.
prefix=${2%/} root=$3${2%/} archive=$4
case $2 in
/*) ;;
*)
    echo "PREFIX is a path from / on, not '$2'" >&2
    exit 2
    ;;
esac

# Each file's mode, where it is made, and its place below the prefix. build/plain/desk.x86-64 is there where
# build/plain/desk only runs it under the kit's emulator, and is taken away in any case.
files() {
    "$1" 755 build/plain/desk bin/desk
    { [ "$1" = put ] && [ ! -e build/plain/desk.x86-64 ]; } || "$1" 755 build/plain/desk.x86-64 bin/desk.x86-64
    "$1" 644 desk/galhoveia.h include/galhoveia.h
    "$1" 644 "$archive" lib/libgalhoveia.a
    "$1" 644 build/galhoveia.pc lib/pkgconfig/galhoveia.pc
    "$1" 644 build/man/desk.1 share/man/man1/desk.1
    "$1" 644 build/man/galhoveia.3 share/man/man3/galhoveia.3
    for example in examples/*; do "$1" 644 "$example" "share/galhoveia/$example"; done
}

put() {
    echo "$root/$3"
    install -D -m "$1" "$2" "$root/$3" || exit 1
}

take() {
    echo "$root/$3"
    rm -f "$root/$3" || exit 1
}

# A blank in the prefix is no end of a word for pkg-config.
describe() {
    cat <<END
prefix=$(printf %s "$prefix" | sed 's/[[:blank:]]/\\&/g')
includedir=\${prefix}/include
libdir=\${prefix}/lib

Name: galhoveia
Description: A proved emulator of the 4-bit controller SH67P54
Version: $(sed -n 's/^#define GALHOVEIA_VERSION *"\(.*\)".*/\1/p' desk/galhoveia.h)
Cflags: -I\${includedir}
Libs: -L\${libdir} -lgalhoveia
END
}

case $1 in
install)
    describe >build/galhoveia.pc || exit 1
    files put
    ;;
uninstall)
    files take
    rmdir "$root/share/galhoveia/examples" "$root/share/galhoveia" 2>/dev/null
    exit 0
    ;;
esac
