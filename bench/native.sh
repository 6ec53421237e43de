#!/usr/bin/env bash
# Compiles the proved library for this processor, for measuring only: native.sh OUT.o [-OLEVEL], from the repository's folder. With a
# LEVEL, from 0 to 3, it is Rattle's own compiler that does, and else the kit's clang at -O3, as for the archive.
# What ships stays as it is: the library is built in a copy, over what checks kept.
set -e
. tests/edits.sh
parts=$(mktemp -d)
trap 'rm -rf "$parts"' EXIT
level=${2#-O}
flags=(--target "$(uname -m)-unknown-linux-gnu")
if [ -n "$level" ]; then
    flags+=(--backend rattle --opt-level "$level")
elif [ "$(uname -m)" = x86_64 ] && awk '
    /^flags/ { for (i = 3; i <= NF; i++) has[$i] = 1; exit }
    END { n = split("avx avx2 bmi1 bmi2 f16c fma abm movbe xsave", wanted, " "); for (i = 1; i <= n; i++) if (!(wanted[i] in has)) exit 1 }
    ' /proc/cpuinfo; then
    flags+=(--cpu x86-64-v3)
fi
room host_c "$parts/repository"
(cd "$parts/repository/crates/host_c" && rt lib "${flags[@]}") >"$parts/said" 2>&1 || { cat "$parts/said"; exit 1; }
ld -r -o "$1" --whole-archive "$parts/repository/crates/host_c/out/libhost_c.a"
