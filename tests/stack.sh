#!/bin/sh
# How much stack the calls of a library take: stack.sh LIBRARY MOST COMPILER OBJECT..: an archive or object; the bytes that
# the deepest call takes, or - where that is not known; and what tests/stack.c was compiled to, with what it needs besides.
# At most: read off the compiled code, so for all inputs. Every way through a function is followed from its beginning:
# what it has pushed and reserved when it comes to an instruction is one number of bytes, whichever way it came, and 0
# where it returns or jumps to another function. It holds its return address and the most of these bytes, and below that
# what it calls, or what it keeps below the stack pointer. No call goes by a register, and none leads back to its caller; a
# jump by a register is taken for a switch, whose cases are the code that nothing else leads to. A function that is not so,
# and a form of code that is not known here, are told and fail. Of memset, memcpy and memmove, the system's, only the return
# address counts.
# Seen: what tests/stack.c saw, which may never be more, but that those of the system may take 128 bytes.
# For each call both, and the functions on the deepest way with what each holds; then every function by itself.
set -e
library=$1
most=$2
compiler=$3
shift 3
work=$(mktemp -d)
trap 'rm -rf "$work"' EXIT
# Bound at once: to look up a function of the system's when it is first called takes stack.
$compiler -Wl,-z,now -o "$work/stack" "$@" "$library"
"$work/stack" >"$work/seen"
if [ "$(uname -m)" != x86_64 ]; then
    echo "Only x86-64 code is read here, so this is what was seen:"
    cat "$work/seen"
    exit
fi
{ objdump -dr --no-show-raw-insn "$library" && echo; } >"$work/code"
awk -v told="$most" '
    function fails(why) { print "stack.sh: " why; failed = 1; exit 1 }
    function unknown() { fails(name ": " $0) }

    function number(hex,    n, i) {
        if (hex !~ /^[0-9a-f]+$/ || length(hex) > 8) unknown()
        for (i = 1; i <= length(hex); i++) n = 16 * n + index("123456789abcdef", substr(hex, i, 1))
        return n
    }
    function reserved() {
        if ($3 !~ /^\$0x.*,%rsp$/) unknown()
        return number(substr($3, 4, length($3) - 8))
    }

    $1 == "seen" { seen[$2] = $3; next }
    /^[0-9a-f]+ <.*>:$/ {
        name = substr($2, 2, length($2) - 3)
        if (name in first) fails("two functions have the name " name)
        functions[++count] = name
        first[name] = at + 1
        next
    }
    # where a call or a jump leads stands behind it if the linker still has to fill it in, else in it
    /R_X86_64_/ && at in target { sub(/^\.text\./, "", $3); sub(/-0x4$/, "", $3); target[at] = $3; address[at] = "" }
    /R_X86_64_/ { next }
    /^\t\.\.\./ { unknown() }
    !/^ *[0-9a-f]+:\t/ { next }
    { code[++at] = $0; number_of[name, $1] = at; last[name] = at }
    match($3, /-0x[0-9a-f]+\(%rsp/) { n = number(substr($3, RSTART + 3, RLENGTH - 8)); if (n > below[name]) below[name] = n }
    $2 ~ /^(call|ret|jmp|push|pop)./ && $2 != "popcnt" || $3 ~ /^(call|ret|jmp)/ || $2 == "ret" && $3 { unknown() }
    $2 ~ /^(enter|leave|loop|int|iret|lret|lcall|ljmp|sys)/ || $3 == "%rsp,%rbp" { unknown() }
    $2 == "lea" && $3 ~ /^0x[0-9a-f]+\(%rsp\),%rsp$/ { change[at] = -number(substr($3, 3, index($3, "(") - 3)); next }
    $3 ~ /^%[re]?spl?$|,%[re]?spl?$/ && $2 != "sub" && $2 != "add" { unknown() }
    $3 ~ /,%[re]?spl?$/ { change[at] = $2 == "sub" ? reserved() : -reserved(); next }
    $2 == "push" { change[at] = 8; next }
    $2 == "pop" { change[at] = -8; next }
    $2 == "ret" { leaves[at] }
    $2 == "ret" || $2 == "jmp" || $2 == "ud2" { ends[at] }
    $2 == "jmp" && $3 ~ /^\*%/ { switches[at]; next }
    $2 == "call" || $2 ~ /^j/ { target[at] = substr($4, 2, length($4) - 2); address[at] = $3 ":" }
    $2 ~ /^j/ { jumps[at] }
    /[ \t]nop|xchg +%ax,%ax$/ { fills[at] }

    # leads(F, K): the call or the jump K of F leads inside F, or to another function
    function leads(f, k) {
        if (k in jumps && target[k] == f) inside[k] = first[f]
        else if (k in jumps && (f, address[k]) in number_of) inside[k] = number_of[f, address[k]]
        else if (target[k] !~ /^[A-Za-z_][A-Za-z0-9_:.]*$/) fails(f ": leads to something unknown:" code[k])
        else { calls[f, ++called[f]] = target[k]; if (k in jumps) leaves[k] }
    }
    # comes(F, K, BYTES): F comes to K, for a case of its switches F, with so much pushed and reserved; goes_on: from K on
    function comes(f, k, bytes) {
        if (!(k in held)) { held[k] = bytes; moved = 1 }
        if (held[k] != bytes) fails(f " holds " held[k] " or " bytes " bytes at" (k == f ? " its switches" : code[k]))
    }
    function goes_on(f, k, bytes) {
        if (bytes < 0 || bytes && k in leaves) fails(f " gives back other than it took, by " bytes ", at" code[k])
        if (bytes > taken[f]) taken[f] = bytes
        if (k in inside) comes(f, inside[k], bytes)
        if (k in switches) comes(f, f, bytes)
        if (k in ends) return
        if (k == last[f]) fails(f " goes on behind its end")
        comes(f, k + 1, bytes)
    }
    function follow(f,    k) {
        for (k = first[f]; k <= last[f]; k++) if (k in target) leads(f, k)
        comes(f, first[f], 0)
        do {
            moved = 0
            for (k = first[f]; k <= last[f]; k++) if (k in held) goes_on(f, k, held[k] + change[k])
            for (k = first[f]; !moved && k <= last[f]; k++) {
                if (k in held || k in fills) continue
                if (!(f in held)) fails(f ": nothing leads to" code[k])
                comes(f, k, held[f])
                cases[f]
            }
        } while (moved)
        if (f in held && !(f in cases)) fails(f " jumps by a register, and has no cases")
    }

    # deepest(F, OUTSIDE): F and all below it, where a function of the system takes so much; way[F, OUTSIDE]: the deepest way
    function deepest(f, outside,    i, c, d, most, through) {
        if ((f, outside) in depth) return depth[f, outside]
        if ((f, outside) in open) fails(f " calls itself")
        open[f, outside]
        most = below[f] + 0
        for (i = 1; i <= called[f]; i++) {
            c = calls[f, i]
            if (!(c in own) && c !~ /^mem(set|cpy|move)$/) fails(f " calls " c)
            d = c in own ? deepest(c, outside) : outside
            if (d > most) { most = d; through = ", " (c in own ? way[c, outside] : c " " outside) }
        }
        way[f, outside] = f " " own[f] through (through ? "" : most ? ", below the stack pointer " most : "")
        return depth[f, outside] = own[f] + most
    }
    END {
        if (failed) exit 1
        if (!count) fails("no code that objdump reads")
        for (i = 1; i <= count; i++) {
            f = functions[i]
            follow(f)
            own[f] = 8 + taken[f]
        }
        print "at most   seen  bytes of stack"
        for (i = 1; i <= count; i++) {
            f = functions[i]
            if (f !~ /^galhoveia_/) continue
            if (!(f in seen)) fails(f " was not seen")
            d = deepest(f, 8)
            if (seen[f] > deepest(f, 8 + 128)) fails(f " was seen to take " seen[f] ", and its code takes " d)
            printf "%7d%7d  %s\n", d, seen[f], way[f, 8]
            if (d > largest) largest = d
            passed++
        }
        print "  holds  below  by itself, and below the stack pointer"
        for (i = 1; i <= count; i++) printf "%7d%7d  %s\n", own[functions[i]], below[functions[i]], functions[i]
        if (told != "-" && told != largest) fails("the deepest call takes " largest ", and was to take " told)
        print passed + (told != "-") " passed, 0 failed"
    }' "$work/seen" "$work/code"
