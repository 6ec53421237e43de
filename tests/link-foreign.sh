#!/bin/sh
# Links x86-64 objects on another processor, by the kit's linker with the kit's C library, and puts a command in front
# that runs the program beside it under the kit's emulator: link-foreign.sh KIT OUT OBJECTS...
set -e
kit=$1
out=$2
shift 2
lib=$kit/lib
"$kit/bin/ld.lld" -pie -o "$out.x86-64" -dynamic-linker "$lib/ld-linux-x86-64.so.2" \
    "$lib/Scrt1.o" "$lib/crti.o" "$lib/crtbeginS.o" "$@" \
    "$lib/libc.so.6" "$lib/libc_nonshared.a" "$lib/libgcc.a" "$lib/crtendS.o" "$lib/crtn.o"
cat >"$out" <<END
#!/bin/sh
exec "$kit/bin/qemu-x86_64" "$lib/ld-linux-x86-64.so.2" --library-path "$lib" "\$(realpath "\$0").x86-64" "\$@"
END
chmod +x "$out"
