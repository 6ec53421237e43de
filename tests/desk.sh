#!/bin/sh
# Tests of the desk command: desk.sh PATH-OF-DESK PATH-OF-FORGETFUL-DESK (forgetful.c) PATH-OF-DEAF-DESK (deaf.c)
# PATH-OF-TORN-DESK (torn.c) PATH-OF-STALE-DESK (stale.c) PATH-OF-LOOPED-DESK (looped.c), from the repository's folder.
desk=$(realpath "$1") || exit 2
forgetful=$(realpath "$2") || exit 2
deaf=$(realpath "$3") || exit 2
torn=$(realpath "$4") || exit 2
stale=$(realpath "$5") || exit 2
looped=$(realpath "$6") || exit 2
inspector=$(realpath docs/INSPECTOR.md) || exit 2
. tests/desk-lib.sh

echo "desk: help and wrong use"
ends 0 --help
says out 'desk writers BOOK CELL'
quiet
ends 0 book --help
for command in demo fresh run trace run-two debug level picture writers xref patch report listing program 'book check' \
    'book make' manual; do
    # shellcheck disable=SC2086
    ends 0 $command --help
    says out "usage: desk $command"
    quiet
done
ends 0 run --help
says out 'EVENT*N'
says out '(EVENTS)*N'
says out 'sound '
says out '--wav FILE [--rate HZ]'
ends 0 fresh --help
says out 'the memory (1,024 bytes), then the record (45 bytes)'
for command in listing program; do
    ends 0 $command --help
    says out '  013 3CA0 STA 0A0 '
    says out '  029 CB80 DATA '
done
ends 0 xref --help
says out 'usage: desk xref BOOK [--cell HEX | --all]'
says out 'The writers of a cell are its own joined with these.'
ends 0 patch --help
says out 'usage: desk patch BOOK ADDRESS WORD OUT [--force]'
says out 'WORD has four hex digits, and need not be an instruction.'
ends 0 book make --help
says out 'EQU'
says out '$300.2'
says out 'ground'
ends 2
says err 'desk demo'
ends 2 nonsense
says err 'no such command: nonsense'
says err 'desk --help names them'
ends 2 manual more
says err 'one word too many: more'
# The manual page has every line of every help.
ends 0 manual
quiet
sed -e 's/^\\&//' -e 's/\\-/-/g' -e 's/\\e/\\/g' -e 's/\\f.//g' out >manual
"$desk" --help | sed -n 's/^  desk \(book [a-z]*\|[a-z-]*\).*/\1/p' >commands
while read -r command; do
    # shellcheck disable=SC2086
    "$desk" $command --help | sed '1s/^usage: //' | grep . >lines
    grep -vxFf manual lines >lost && wrong "the manual page lacks of desk $command: $(head -n 1 lost)" || ok
done <commands
"$desk" --help | sed '1,/--version/d' | grep . >lines
grep -vxFf manual lines >lost && wrong "the manual page lacks: $(head -n 1 lost)" || ok
ends 0 --version
says out 'desk, galhoveia '
says out ', commit '
quiet
ends 2 book
ends 2 book burn
says err 'no such command: book burn'
for command in fresh run trace run-two debug level picture writers xref patch report listing program 'book check' \
    'book make'; do
    # shellcheck disable=SC2086
    ends 2 $command
    says err "usage: desk $command"
    # shellcheck disable=SC2086
    ends 2 $command --nonsense
    says err 'unknown option --nonsense'
done
ends 2 level "$book" a b
says err 'one word too many: b'
ends 2 run "$book" "$script" --stop
says err 'a value is due after --stop'
ends 2 run "$book" "$script" --stop 12G
says err 'not a hex number'
ends 2 run "$book" "$script" --stop 100000000
ends 2 run "$book" "$script" --stop 1 --stop 2
says err 'given twice: --stop'
ends 2 run "$book" "$script" --show --show
says err 'given twice: --show'
ends 2 run "$book" "$script" --digits 2
says err 'for what is shown by --show: --digits'
ends 2 run "$book" "$script" --columns 2
says err 'for what is shown by --show: --columns'
ends 2 run "$book" "$script" --force
says err 'for the files of --save and --wav: --force'
ends 0 help
says out 'desk writers BOOK CELL'
quiet
ends 0 help book make
says out 'usage: desk book make'
quiet
ends 0 help run
says out 'usage: desk run BOOK'
for words in nonsense 'run more' book; do
    # shellcheck disable=SC2086
    ends 2 help $words
    says err "no such command: $words"
done
ends 2 writers "$book" zz
says err 'not a hex number'
ends 2 run "$book" "$script" --watch
says err 'a value is due after --watch'
ends 2 run "$book" "$script" --watch zz
says err 'not a hex number'

echo "desk: demo"
ends 0 demo "$examples"
quiet
says out 'level -1  (digits 0,1; ground code 2)'
says out 'level 6  (digits 1,0; ground code 2)'
says out '027 3C20 STA 020'
says out "stopped at the script's end"
says out 'heard no stroke'
says out 'heard 2 strokes: down'
says out 'heard 1 stroke: up'
says out '  event 23057: $020 0 -> 1  by  027 3C20 STA 020'
says out 'cell $021 (low digit of the level): 3 changes; of 4 instructions that can change it 2 did, and these never:'
ends 2 demo nowhere
says err 'cannot read nowhere/dispatcher.script'
(cd "$examples/.." && "$desk" demo >/dev/null 2>&1) && ok || wrong "desk demo without a folder"

echo "desk: fresh"
ends 0 fresh one.state
size_is one.state 1069
quiet
cp one.state kept
ends 2 fresh one.state --options 3
says err 'one.state exists and is left as it is'
same one.state kept
ends 0 fresh one.state --options 3 --force
cmp -s one.state kept && wrong "--force leaves the file" || ok
ends 1 fresh two.state --options 8
says err 'refused by 12, value 8'
absent two.state
ends 2 fresh two.state --options x
absent two.state
ends 2 fresh nowhere/two.state
says err 'cannot write nowhere/two.state'
mkdir folder
ends 2 fresh folder --force
says err 'cannot write folder'
# A pipe or a link is not replaced by a file of its name, as a device would be.
mkfifo pipe
ln -s one.state link
ln -s nothing dangling
for odd in pipe link dangling; do
    ends 2 fresh $odd
    says err "cannot write $odd: it is no ordinary file and is left as it is"
    ends 2 fresh $odd --force
    says err "cannot write $odd: it is no ordinary file and is left as it is"
done
if [ -p pipe ] && [ -L link ] && [ -L dangling ]; then ok; else wrong "a pipe or a link was replaced"; fi
same one.state link
absent nothing
no_parts
ends 0 fresh -- --odd-name
size_is ./--odd-name 1069
(umask 027 && "$desk" fresh masked.state >/dev/null)
case $(ls -l masked.state) in -rw-r-----*) ok ;; *) wrong "a file's mode does not follow the umask" ;; esac

echo "desk: run"
ends 0 run "$book" "$script"
says out "29608 of 29608 events done; stopped at the script's end"
says out 'asleep in HALT'
says out 'sound channel 1: output 1, count 12; channel 2: output 0, count 0'
quiet
ends 0 run "$book" "$script" --save end.state
says out 'state saved in end.state'
size_is end.state 1069
cp end.state kept
ends 2 run "$book" "$script" --save end.state --stop 010
says err 'end.state exists'
unbegun
same end.state kept
ends 2 run "$book" "$script" --save nowhere/end.state
says err 'cannot write nowhere/end.state'
unbegun
ends 0 run "$book" "$script" --stop 010 --save ready.state
says out '281 of 29608 events done; stopped at $010'
ends 0 run "$book" "$script" --stop '$10'
says out 'stopped at $010'
ends 0 run "$book" "$script" --stop 0x1000
says out "stopped at the script's end"
printf 'b=0 c=1 a=1 # called\ncycle*105 a=0' >below.script
ends 2 run "$book" below.script --state ready.state --save unsaved.state --show --digits 3
says err '3 digits need 21 elements'
absent unsaved.state
ends 0 run "$book" below.script --state ready.state --save below.state --show --digits 2
says out 'level -1'
says out '# .'
ends 0 run "$book" below.script --state ready.state --save ready.state --force
same ready.state below.state
ends 2 run "$book" below.script --state ready.state --options 1
ends 1 run "$book" below.script --options 9
says err 'refused by 12, value 9'
# A text and its bytes are one script.
printf 'cycle*3 base watchdog\na=F b=0 $4A reset sound*2 cycle $05' >mixed.script
printf '\000\000\000\001\002\037\040\112\003\005\005\000\005' >mixed.bytes
ends 0 run "$book" mixed.script --save text.state
says out '13 of 13 events done'
ends 0 run "$book" mixed.bytes --raw-script --save bytes.state
says out '13 of 13 events done'
same text.state bytes.state
: >empty.script
ends 0 run "$book" empty.script --save empty.state
says out '0 of 0 events done'
ends 0 fresh fresh.state
same empty.state fresh.state
for bad in cycles 'cycle*' 'cycle*x' 'cycle*$10' 'cycle*0x10' 'cycle*9999999999' 'e=1' 'a=G' 'a=10' '$123' '$G0' '*5' 'a1'; do
    printf 'cycle\n%s\n' "$bad" >bad.script
    ends 2 run "$book" bad.script --save never.state
    says err "bad.script:2: $bad"
    absent never.state
done
printf 'cycle*600000000 cycle*600000000' >long.script
ends 2 run "$book" long.script
says err 'more than 1073741824 events'
printf 'cycle\000cycle' >nul.script
ends 2 run "$book" nul.script
says err 'nul.script is no text'
printf 'cycle $04 cycle' >unknown.script
ends 1 run "$book" unknown.script
says err 'refused by 5, value 1'
printf 'cycle $50 cycle' >unknown.script
ends 1 run "$book" unknown.script --save never.state
says err 'refused by 5, value 1'
absent never.state
ends 2 run "$book" nowhere.script
says err 'cannot read nowhere.script'
ends 2 run nowhere.book "$script"
says err 'cannot read nowhere.book'
ends 2 run "$book" folder
says err 'cannot read folder'
ends 2 run "$book" "$script" --state nowhere.state
says err 'cannot read nowhere.state'
head -c 1068 end.state >short.state
ends 2 run "$book" "$script" --state short.state
says err 'short.state is no state: it has 1068 bytes, and a state has 1069'
{ cat end.state; printf x; } >long.state
ends 2 run "$book" "$script" --state long.state
says err 'it has 1070 bytes'
# is_old BYTES FIELDS: a state of so many bytes is one that was written before there were these fields.
is_old() {
    head -c "$1" end.state >old.state
    ends 2 run "$book" "$script" --state old.state --save never.state
    says err "old.state is a state of a version before $2: it has $1 bytes, and a state now has 1069"
    says err 'make it anew by desk fresh'
    absent never.state
    ends 2 level "$book" old.state
    says err "a version before $2"
    ends 2 picture "$book" old.state
    says err "a version before $2"
}
is_old 1061 sound
is_old 1067 "Timer0's frozen nibble"

echo "desk: what a command reads is not written over"
cp "$book" own.book
cp "$script" own.script
cp own.book as-it-was.book
for words in 'run own.book own.script --save own.book' 'run own.book own.script --wav own.script' \
    'run-two own.book own.script --raw-script --save0 own.book' 'listing own.book --out own.book' \
    'trace own.book own.script --vcd own.script' 'trace own.book own.script --vcd ./own.book' \
    'report own.book --out own.book' 'report own.book --script own.script --out own.script' \
    'book make own.script own.script own.book own.book' 'program own.script ./own.script'; do
    # shellcheck disable=SC2086
    ends 2 $words --force
    says err 'is read by this command and is left as it is, --force or not'
    unbegun
    same own.book as-it-was.book
    same own.script "$script"
done
# A file that may not be so long is told as one that cannot be written.
said='a file above the limit of lengths'
sh -c 'ulimit -f 8; exec "$1" report "$2" --out limited.html' sh "$desk" "$book" >out 2>err
got=$?
if [ "$got" = 2 ]; then ok; else wrong "$said: status $got, not 2"; fi
says err 'cannot write limited.html: File too large'
absent limited.html
no_parts
# A file that is written over keeps its mode.
ends 0 fresh private.state
chmod 600 private.state
ends 0 fresh private.state --options 1 --force
case $(ls -l private.state) in -rw-------*) ok ;; *) wrong "a file that is written over has another mode" ;; esac

echo "desk: refused states"
{ printf '\020'; tail -c +2 end.state; } >cell.state
ends 1 run "$book" "$script" --state cell.state --save never.state
says err 'refused by 3, value 0'
says err 'memory cell $000'
absent never.state
ends 1 level "$book" cell.state
says err 'cell.state: refused by 3'
ends 1 picture "$book" cell.state
says err 'refused by 3'
{ head -c 1024 end.state; printf '\020'; tail -c 44 end.state; } >record.state
ends 1 run "$book" "$script" --state record.state
says err 'refused by 4, value 0'
ends 1 picture "$book" record.state
says err 'refused by 4'
ends 0 level "$book" record.state

echo "desk: a word that is no instruction"
printf ' ORG $000\n LDI $020, 9\n LDI $021, 1\n DW $F800\n' >stop.asm
printf '$300.0 $348.3' >small.wiring
printf 'high $020 low $021 ground 2' >small.level
ends 0 book make stop.book stop.asm small.wiring small.level
printf 'cycle*9' >nine.script
ends 1 run stop.book nine.script --save unlisted.state
says err 'refused by 6, value 2'
says err '$002'
says out '2 of 9 events done'
size_is unlisted.state 1069
ends 1 level stop.book unlisted.state
says err 'refused by 9, value 0'
says err 'high digit'
printf 'high $021 low $020 ground 2' >turned.level
ends 0 book make turned.book stop.asm small.wiring turned.level
ends 1 level turned.book unlisted.state
says err 'refused by 9, value 1'
says err 'low digit'

echo "desk: level and picture"
ends 0 level "$book" end.state
says out 'level 6'
quiet
ends 0 level "$book" below.state
says out 'level -1'
ends 0 level "$book" fresh.state
says out 'level -2'
ends 0 picture "$book" end.state --raw
size_is out 16
printf '\000\001\001\000\000\000\000\001\001\001\001\001\001\000\000\001' >wanted
same out wanted
ends 0 picture "$book" fresh.state --raw
head -c 16 /dev/zero >wanted
same out wanted
ends 0 picture "$book" end.state
says out ' . # # . . . . # # # # # # . . #   elements 0 to 15'
ends 0 picture "$book" end.state --columns 7
says out ' . # # . . . .   elements 0 to 6'
says out ' . #             elements 14 to 15'
ends 0 picture "$book" end.state --digits 2
says out '|        |   |    |   |'
ends 2 picture "$book" end.state --digits 3
says err '3 digits need 21 elements'
ends 2 picture "$book" end.state --columns 0
ends 2 picture "$book" short.state
ends 2 level "$book" short.state
ends 2 level "$book" nowhere.state
ends 2 picture nowhere.book end.state

echo "desk: writers"
ends 0 writers "$book" 020
says out 'cell $020: 4 instructions can change it'
says out '04A 3C0F STA 00F'
quiet
ends 0 writers "$book" --level
says out 'cell $020 (high digit of the level): 4'
says out 'cell $021 (low digit of the level): 4'
says out '016 7921 LDI 021 2'
ends 0 writers --level "$book"
ends 0 writers "$book" '$304'
says out 'STA 304'
ends 0 writers stop.book 36D
says out 'cell $36D: no instruction can change it'
ends 0 writers stop.book 20
says out 'cell $020: 1 instruction can change it'
for cell in 000 01F 170 2FF 349 357 36E 370 3FF 400 FFFFFFFF; do
    ends 1 writers "$book" $cell
    says err "refused by 8, value $((0x$cell))"
done
ends 2 writers "$book" 020 --level
ends 2 writers "$book"
# The paper's twelfth number.
printf ' ORG $010\n ADIM $20,0\n ADIM $20,1\n STA $0F\n STA $0A0\n ANDIM $20,15\n' >twelve.asm
ends 0 book make twelve.book twelve.asm small.wiring small.level
ends 0 writers twelve.book 020
says out 'cell $020: 2 instructions'
says out '  011 48A0 ADIM 020 1'
says out '  012 3C0F STA 00F'

echo "desk: watched cells"
# Which instructions moved the level: neither STA $00F did, since the pointer stands at the display.
cat >wanted <<'END'
29608 of 29608 events done; stopped at the script's end
PC $011, AC 8, CY 1, asleep in HALT
sound channel 1: output 1, count 12; channel 2: output 0, count 0
changes, with events counted from 0:
  event 25: $021 0 -> 2  by  016 7921 LDI 021 2
  event 573: $021 2 -> 1  by  02B 3C21 STA 021
  event 23057: $020 0 -> 1  by  027 3C20 STA 020
  event 23077: $021 1 -> 0  by  02B 3C21 STA 021
cell $020 (high digit of the level): 1 change; of 4 instructions that can change it 1 did, and these never:
  015 7820 LDI 020 0
  04A 3C0F STA 00F  ; wherever the pointer $012, $011, $010 stands
  04D 3C0F STA 00F  ; wherever the pointer $012, $011, $010 stands
cell $021 (low digit of the level): 3 changes; of 4 instructions that can change it 2 did, and these never:
  04A 3C0F STA 00F  ; wherever the pointer $012, $011, $010 stands
  04D 3C0F STA 00F  ; wherever the pointer $012, $011, $010 stands
END
ends 0 run "$book" "$script" --watch-level
same out wanted
# The inspector's page shows it, and the list of writers, as they are.
sed -n '/^changes, /,$p' wanted >block
sed -n '/^changes, /,/^```/p' "$inspector" | sed '$d' >shown
same shown block
ends 0 writers "$book" --level
sed -n '/^cell $020 (high digit of the level): 4 instructions/,/^```/p' "$inspector" | sed '$d' >shown
same shown out
quiet
ends 0 run "$book" "$script" --watch 20 --watch-level
same out wanted
# Beside it the output is that of any run.
ends 0 run "$book" "$script" --save watched.state --show --digits 2
cp out plain.out
ends 0 run "$book" "$script" --save watched.state --force --show --digits 2 --watch '$304' --watch-level
says out '  event 768: $304 0 -> 1  by  044 3F04 STA 304'
says out 'cell $304: 2 changes; of 3 instructions that can change it 1 did, and these never:'
grep -v -e '^changes, ' -e '^  event ' -e '^cell \$' -e '^  [0-9A-F]\{3\} [0-9A-F]\{4\} ' out >rest.out
same rest.out plain.out
same watched.state end.state
ends 0 run "$book" "$script" --watch 300
says out '  by  04A 3C0F STA 00F  ; wherever the pointer $012, $011, $010 stands'
ends 0 run "$book" "$script" --watch 0x16F
says out 'cell $16F: 0 changes; of 2 instructions that can change it 0 did, and these never:'
ends 0 run "$book" "$script" --watch 021 --stop 010
says out '281 of 29608 events done; stopped at $010'
says out 'cell $021: 1 change; of 4'
ends 0 run "$book" below.script --state ready.state --watch-level
says out '109 of 109 events done'
ends 0 run "$book" mixed.bytes --raw-script --watch 021
says out '13 of 13 events done'
ends 0 run "$book" empty.script --watch 021
says out 'cell $021: 0 changes'
ends 0 run stop.book empty.script --watch 36D
says out 'cell $36D: 0 changes; of 0 instructions that can change it 0 did'
ends 1 run stop.book nine.script --watch 20
says err 'refused by 6, value 2'
says out '2 of 9 events done; stopped before a word that is no instruction'
says out '  event 0: $020 0 -> 9  by  000 7CA0 LDI 020 9'
says out 'cell $020: 1 change; of 1 instruction that can change it 1 did'
# What is refused is not run.
: >nothing
for cell in 000 01F 170 2FF 349 357 36E 370 3FF 400 FFFFFFFF; do
    ends 1 run "$book" "$script" --watch $cell --save never.state
    says err "the list of writers: refused by 8, value $((0x$cell))"
    same out nothing
done
ends 1 run "$book" unknown.script --watch-level --save never.state
says err 'refused by 5, value 1'
same out nothing
ends 1 run "$book" "$script" --state cell.state --watch-level --save never.state
says err 'refused by 3, value 0'
same out nothing
absent never.state
# A list that leaves a writer out is found out by a run in which that one writes.
proved=$desk
desk=$forgetful
ends 3 run "$book" "$script" --watch-level
says out '29608 of 29608 events done'
says out '  event 25: $021 0 -> 2  by  016 7921 LDI 021 2'
says err 'desk: FAULT: event 25 changed cell $021 at $016, which its list of writers does not have'
says err 'report it'
ends 3 demo "$examples"
says err 'desk: FAULT: event 25 changed cell $021 at $016, which its list of writers does not have'
ends 3 report "$book" --script "$script" --out never.html
says err 'desk: FAULT: event 25 changed cell $021 at $016, which its list of writers does not have'
says err 'report it'
absent never.html
ends 0 run "$book" "$script" --watch 020
quiet
desk=$proved

echo "desk: groups in scripts"
# comes_to TEXT TEXT: two scripts that come to the same, on a chip that sounds, so that neither a cycle nor a sound
# clock is lost unseen.
comes_to() {
    printf '%s' "$1" >group.script
    printf '%s' "$2" >flat.script
    ends 0 run "$book" group.script --state sounding.state --save group.state --force
    cp out group.out
    ends 0 run "$book" flat.script --state sounding.state --save flat.state --force
    sed 's/group.state/flat.state/' group.out >got
    same got out
    same group.state flat.state
}
cat >sounding.asm <<'END'
        LDI $020, 15
        STA $371
        LDI $020, 7
        STA $372
        LDI $020, 1
        STA $377
END
ends 0 book make sounding.book sounding.asm small.wiring small.level
printf 'cycle*6' >sounding.script
ends 0 run sounding.book sounding.script --save sounding.state
comes_to '(cycle sound*4)*3' 'cycle sound*4 cycle sound*4 cycle sound*4'
comes_to '(cycle sound)*2' 'cycle sound cycle sound'
comes_to '(a=1 cycle*2 a=0)*3 base' 'a=1 cycle cycle a=0 a=1 cycle cycle a=0 a=1 cycle cycle a=0 base'
comes_to '(cycle)' 'cycle'
comes_to '((a=1 sound)*2 (a=2 cycle)*3)*2 d=4' 'a=1 sound a=1 sound a=2 cycle a=2 cycle a=2 cycle a=1 sound a=1 sound a=2 cycle a=2 cycle a=2 cycle d=4'
comes_to 'a=3( cycle )*2(a=5)*1 b=2' 'a=3 cycle cycle a=5 b=2'
comes_to 'a=3 (cycle*5 reset)*0 b=2' 'a=3 b=2'
comes_to 'a=3 ()*5 b=2' 'a=3 b=2'
comes_to '(cycle # a comment ) *
)*2' 'cycle*2'
comes_to '((((((((((((((((cycle)*2)))))))))))))))' 'cycle*2'
printf '((((((((((cycle)*10)*10)*10)*10)*10)*10 sound)*2))*2)' >deep.script
ends 0 run "$book" deep.script
says out '4000004 of 4000004 events done'
# bad_group LINE WORDS TEXT: the text is refused with the line and the words.
bad_group() {
    printf '%s' "$3" >bad.script
    ends 2 run "$book" bad.script --save never.state
    says err "bad.script:$1: $2"
    absent never.state
}
newline='
'
bad_group 2 'the group that begins here has no ) at its end' "cycle$newline(cycle sound${newline}cycle$newline"
bad_group 1 'the group that begins here has no ) at its end' "(cycle (sound)*2$newline"
bad_group 2 ') closes a group that no ( opens' "cycle$newline)"
bad_group 2 ')*3 closes a group that no ( opens' "(cycle)*2$newline )*3"
bad_group 1 ')*: how many times?' '(cycle)*'
bad_group 1 ')*x: how many times?' '(cycle)*x'
bad_group 1 ')x: how many times?' '(cycle)x'
bad_group 1 ')*2x: how many times?' '(cycle)*2x'
bad_group 1 '*2 is no event' '(cycle) *2'
bad_group 2 'bang is no event' "(cycle$newline bang)*2"
bad_group 1 'more than 16 groups stand in each other' '(((((((((((((((((cycle)))))))))))))))))'
bad_group 3 'the script has more than 1073741824 events' "($newline(cycle*1000)*1000$newline)*2000"
bad_group 1 'the script has more than 1073741824 events' '(cycle*1000000)*2000'
bad_group 1 'the script has more than 1073741824 events' 'sound (cycle)*1073741824'
bad_group 1 ')*1073741825: how many times?' '(cycle)*1073741825'

echo "desk: sound"
# Little numbers of a WAV file as the decimal bytes that od shows.
bytes_of() {
    awk -v number="$1" -v bytes="$2" 'BEGIN { for (; bytes > 0; bytes--) { printf " %d", number % 256; number = int(number / 256) } }'
}

# header_is FILE CLOCKS RATE: the file is as long as it must be and begins as a WAV file of 16-bit stereo does.
header_is() {
    size_is "$1" $((44 + 4 * $2))
    {
        printf ' 82 73 70 70' # RIFF
        bytes_of $((36 + 4 * $2)) 4
        printf ' 87 65 86 69' # WAVE
        printf ' 102 109 116 32' # fmt
        bytes_of 16 4
        bytes_of 1 2
        bytes_of 2 2
        bytes_of "$3" 4
        bytes_of $((4 * $3)) 4
        bytes_of 4 2
        bytes_of 16 2
        printf ' 100 97 116 97' # data
        bytes_of $((4 * $2)) 4
        printf '\n'
    } >wanted
    od -An -v -t u1 -N 44 "$1" | awk '{ for (i = 1; i <= NF; i++) printf " %d", $i } END { printf "\n" }' >got
    same got wanted
}

# The samples of a WAV file, a frame in each line: left, right.
frames() {
    od -An -v -t d2 -w4 -j 44 "$1"
}

# strokes_of COLUMN FILE: how often the left (1) or right (2) channel begins to move after more than 2,032 frames at
# rest, 2,032 being the longest period that a tone can have.
strokes_of() {
    frames "$2" | awk -v column="$1" '
        BEGIN { before = 0; rest = 3000 }
        { if ($column != before) { if (rest > 2032) strokes++; rest = 0 } else rest++; before = $column }
        END { print strokes + 0 }'
}

# hears COLUMN STROKES FILE
hears() {
    heard=$(strokes_of "$1" "$3")
    if [ "$heard" = "$2" ]; then ok; else wrong "$said: $heard strokes in column $1 of $3, not $2"; fi
}

ends 0 run "$book" "$script" --wav both.wav
says out 'both.wav: 23680 sound clocks, 0.723 s at 32768 Hz; turns of the output: channel 1 527, channel 2 0'
quiet
header_is both.wav 23680 32768
hears 1 3 both.wav
hears 2 0 both.wav
frames both.wav | awk '$1 != 0 && $1 != 8192 || $2 != 0 { bad++ } END { exit bad > 0 }' && ok || wrong "both.wav: other samples"
# E5 by N 25: inside a stroke the left channel turns every 25 frames.
frames both.wav | awk '
    BEGIN { before = 0; last = 0 }
    $1 != before { if (last && NR - last < 2000 && NR - last != 25) bad++; last = NR; before = $1 }
    END { exit bad > 0 || last == 0 }' && ok || wrong "both.wav: a tone of another period"
# Beside it the output and the state are those of any run.
ends 0 run "$book" "$script" --wav both.wav --force --save heard.state --watch-level --show --digits 2
same heard.state end.state
says out 'level 6'
says out 'state saved in heard.state'
# Up is one stroke, down two, no way none; after each other and from a saved state.
ends 0 run "$book" "$script" --stop 010 --save ready.state --force
quiet
call() {
    printf 'b=%s c=%s a=1 (cycle sound*4)*3500 a=0 (cycle sound*4)*600\n' "$1" "$2"
}
call 0 3 >up.script
ends 0 run "$book" up.script --state ready.state --wav up.wav --save up.state
hears 1 1 up.wav
header_is up.wav 16400 32768
call 0 2 >same.script
ends 0 run "$book" same.script --state ready.state --wav same.wav
hears 1 0 same.wav
header_is same.wav 16400 32768
call 0 0 >down.script
ends 0 run "$book" down.script --state up.state --wav down.wav
hears 1 2 down.wav
{ call 1 0; call 0 7; call 7 7; call 7 7; call 6 0; } >five.script
ends 0 run "$book" five.script --state ready.state --wav five.wav
hears 1 6 five.wav
# Channel 2, by N 3: in HALT it goes on, in STOP it rests; the octave bit makes it 24.
cat >halt.asm <<'END'
        LDI $020, 0
        STA $375
        LDI $020, 7
        STA $376
        LDI $020, 2
        STA $377
        HALT
END
sed 's/HALT/STOP/' halt.asm >rest.asm
sed 's/, 7/, 15/' halt.asm >octave.asm
for tone in halt rest octave; do
    ends 0 book make $tone.book $tone.asm small.wiring small.level
done
printf 'cycle*7 sound*9' >tone.script
ends 0 run halt.book tone.script --wav tone.wav
says out 'asleep in HALT'
says out 'sound channel 1: output 0, count 0; channel 2: output 1, count 0'
says out 'tone.wav: 9 sound clocks, 0.000 s at 32768 Hz; turns of the output: channel 1 0, channel 2 3'
header_is tone.wav 9 32768
frames tone.wav | awk '{ printf "%d,%d ", $1, $2 }' >got
printf '0,0 0,0 0,8192 0,8192 0,8192 0,0 0,0 0,0 0,8192 ' >wanted
same got wanted
ends 0 run rest.book tone.script --wav rest.wav
says out 'asleep in STOP'
says out 'rest.wav: 9 sound clocks, 0.000 s at 32768 Hz; turns of the output: channel 1 0, channel 2 0'
header_is rest.wav 9 32768
printf 'cycle*7 sound*100' >octave.script
ends 0 run octave.book octave.script --wav octave.wav
frames octave.wav | awk 'BEGIN { before = 0 } $2 != before { printf "%d ", NR; before = $2 }' >got
printf '24 48 72 96 ' >wanted
same got wanted
# The same events at the other clock: other seconds, the same samples.
ends 0 run halt.book tone.script --wav fast.wav --rate 112500
says out '9 sound clocks, 0.000 s at 112500 Hz'
header_is fast.wav 9 112500
frames tone.wav >slow.frames
frames fast.wav >fast.frames
same slow.frames fast.frames
ends 0 run halt.book tone.script --wav slow.wav --rate 32768
same slow.wav tone.wav
# Only clocks that were done are heard, also before a word that is no instruction.
printf 'sound*2 cycle*2 sound*3 cycle sound*7' >cut.script
ends 1 run stop.book cut.script --wav cut.wav
says err 'refused by 6, value 2'
says out 'cut.wav: 5 sound clocks'
header_is cut.wav 5 32768
ends 0 run "$book" "$script" --stop 010 --wav ready.wav
says out 'ready.wav: 224 sound clocks'
header_is ready.wav 224 32768
# Nothing to hear.
printf 'cycle*9 a=1' >silent.script
ends 0 run "$book" silent.script --wav silent.wav
says out 'silent.wav: no sound clock was done'
header_is silent.wav 0 32768
ends 0 run "$book" empty.script --wav empty.wav
says out 'empty.wav: no sound clock was done'
header_is empty.wav 0 32768
printf 'sound*5' >only.script
ends 0 run "$book" only.script --wav only.wav
says out 'turns of the output: channel 1 0, channel 2 0'
header_is only.wav 5 32768
# What is in the way, or wrong.
cp both.wav kept
ends 2 run "$book" "$script" --wav both.wav --save never.state
says err 'both.wav exists and is left as it is'
same both.wav kept
ends 0 run "$book" only.script --wav both.wav --force
same both.wav only.wav
ends 2 run "$book" "$script" --wav nowhere/a.wav
says err 'cannot write nowhere/a.wav'
unbegun
ends 2 run "$book" "$script" --wav kept/a.wav
says err 'cannot write kept/a.wav: Not a directory'
unbegun
ends 2 run "$book" "$script" --wav folder --force
says err 'cannot write folder'
ends 2 run "$book" "$script" --wav pipe --force
says err 'cannot write pipe: it is no ordinary file'
unbegun
ends 2 run "$book" "$script" --wav
says err 'a value is due after --wav'
for rate in 0 8000 44100 16384 32767 112501 262000 99999999999 x; do
    ends 2 run "$book" "$script" --wav never.wav --rate $rate
    absent never.wav
done
says err 'usage: desk run'
ends 2 run "$book" "$script" --wav never.wav --rate 44100
says err 'the rate of a sound clock is 32768 or 112500, not 44100'
ends 2 run "$book" "$script" --rate 32768
says err '--rate is for the file of --wav'
ends 2 run "$book" "$script" --wav never.wav --save never.wav
says err 'two files'
# One file under two names: found at once where it is there, else before the state would take the sound's place.
cp both.wav kept
ends 2 run "$book" "$script" --wav both.wav --save ./both.wav --force
says err 'two files'
same both.wav kept
ends 2 run "$book" only.script --wav twice.wav --save ./twice.wav --force
says err 'the state is not saved: ./twice.wav is the file of the sound, twice.wav'
header_is twice.wav 5 32768
ends 1 run "$book" unknown.script --wav never.wav
says err 'refused by 5, value 1'
ends 1 run "$book" "$script" --state cell.state --wav never.wav
says err 'refused by 3, value 0'
absent never.wav
absent never.state
no_parts
# Records with a count or an output out of its rule: bytes 37 to 42 of the record, before the state's last two.
for tail in '\004\000\000\000\000\000' '\003\370\000\000\000\000' '\000\000\002\000\000\000' '\000\000\000\003\370\000' \
    '\000\000\000\000\000\002'; do
    # shellcheck disable=SC2059
    { head -c 1061 end.state; printf "$tail"; tail -c 2 end.state; } >sound.state
    ends 1 run "$book" only.script --state sound.state
    says err 'refused by 4, value 0'
done
{ head -c 1061 end.state; printf '\003\367\001\003\367\001'; tail -c 2 end.state; } >sound.state
ends 0 run "$book" empty.script --state sound.state
says out 'sound channel 1: output 1, count 1015; channel 2: output 1, count 1015'
# A million sound clocks, four to a cycle.
printf '(cycle sound*4)*250000' >million.script
ends 0 run "$book" million.script --wav million.wav
says out 'million.wav: 1000000 sound clocks, 30.518 s at 32768 Hz'
header_is million.wav 1000000 32768
rm million.wav
# A step that loses sound clocks is found out.
proved=$desk
desk=$deaf
ends 3 run "$book" "$script" --wav never.wav
says out '29608 of 29608 events done'
says err 'desk: FAULT: sound clock by sound clock the run comes to another end'
says err 'report it'
absent never.wav
ends 3 report "$book" --script "$script" --out never.html
says err 'desk: FAULT: single steps and the run come to different states'
absent never.html
ends 3 run "$book" "$script" --options 1 --wav never.wav
says err 'the run, sound clock by sound clock: refused by 4, value 0'
says err 'desk: FAULT: sound clock by sound clock the run comes to another end'
says err 'report it'
absent never.wav
ends 3 demo "$examples"
says err 'desk: FAULT: sound clock by sound clock the run comes to another end'
ends 3 report "$book" --script "$script" --out never.html
says err 'desk: FAULT: single steps and the run come to different states'
says err 'report it'
absent never.html
ends 0 run "$book" silent.script --wav silent.wav --force
quiet
desk=$proved

echo "desk: Timer0 read in two halves"
cat >halves.asm <<'END'
        LDI $002, 6     ; a count for every two cycles
        LDI $004, 15
        LDI $005, 3     ; the counter is $3F
        LDA $005        ; and $40 after this
        STA $020
        LDA $004
        STA $021
END
ends 0 book make halves.book halves.asm small.wiring small.level
printf 'cycle*7' >seven.script
cat >wanted <<'END'
4 of 7 events done; stopped at $004
PC $004, AC 3, CY 0, running
sound channel 1: output 0, count 0; channel 2: output 0, count 0
Timer0's low nibble is frozen as F until $004 is read
END
ends 0 run halves.book seven.script --stop 004
same out wanted
cat >wanted <<'END'
7 of 7 events done; stopped at the script's end
PC $007, AC F, CY 0, running
sound channel 1: output 0, count 0; channel 2: output 0, count 0
changes, with events counted from 0:
  event 4: $020 0 -> 3  by  004 3C20 STA 020
  event 6: $021 0 -> F  by  006 3C21 STA 021
cell $020 (high digit of the level): 1 change; of 1 instruction that can change it 1 did
cell $021 (low digit of the level): 1 change; of 1 instruction that can change it 1 did
END
ends 0 run halves.book seven.script --watch-level
same out wanted
# The nibble is kept in the state.
ends 0 run halves.book seven.script --stop 004 --save half.state
printf 'cycle*3' >rest.script
cat >wanted <<'END'
3 of 3 events done; stopped at the script's end
PC $007, AC F, CY 0, running
sound channel 1: output 0, count 0; channel 2: output 0, count 0
END
ends 0 run halves.book rest.script --state half.state
same out wanted
# A reset releases it.
printf 'reset' >reset.script
ends 0 run halves.book reset.script --state half.state --save reset.state
same reset.state fresh.state

echo "desk: DAA on the cell"
cat >decimal.asm <<'END'
        LDI $020, 7
        ADIM $020, 5    ; 7 + 5
        LDI $022, 3     ; AC is another
        DAA $020        ; the digit 2, and one to carry
        STA $021
END
ends 0 book make decimal.book decimal.asm small.wiring small.level
printf 'cycle*5' >five.script
cat >wanted <<'END'
5 of 5 events done; stopped at the script's end
PC $005, AC 2, CY 1, running
sound channel 1: output 0, count 0; channel 2: output 0, count 0
changes, with events counted from 0:
  event 0: $020 0 -> 7  by  000 7BA0 LDI 020 7
  event 1: $020 7 -> C  by  001 4AA0 ADIM 020 5
  event 3: $020 C -> 2  by  003 CB20 DAA 020
  event 4: $021 0 -> 2  by  004 3C21 STA 021
cell $020 (high digit of the level): 3 changes; of 3 instructions that can change it 3 did
cell $021 (low digit of the level): 1 change; of 1 instruction that can change it 1 did
END
ends 0 run decimal.book five.script --watch-level
same out wanted
# Nibble and mark are the state's last two bytes.
for tail in '\001\000' '\017\000' '\020\001' '\377\001' '\000\002' '\005\377'; do
    # shellcheck disable=SC2059
    { head -c 1067 end.state; printf "$tail"; } >frozen.state
    ends 1 run "$book" empty.script --state frozen.state
    says err 'refused by 4, value 0'
    ends 1 picture "$book" frozen.state
    says err 'frozen.state: refused by 4, value 0'
done
{ head -c 1067 end.state; printf '\000\001'; } >frozen.state
ends 0 run "$book" empty.script --state frozen.state
says out "Timer0's low nibble is frozen as 0 until \$004 is read"
{ head -c 1067 end.state; printf '\017\001'; } >frozen.state
ends 0 run "$book" empty.script --state frozen.state
says out "Timer0's low nibble is frozen as F until \$004 is read"

echo "desk: two cars"
block=$examples/science-block.script

# alone CAR BOOK WORDS...: what desk run makes of the car's own entries, car0.script or car1.script, is kept in car0.out
# and car0.state, or 1.
alone() {
    car=$1 its_book=$2
    shift 2
    # shellcheck disable=SC2086
    "$desk" run "$its_book" "car$car.script" "$@" --show $look --save "car$car.state" --force >"car$car.out" 2>/dev/null
}
look='--columns 8'

# How many entries a car has, and how many of them it takes until it stops; 0 if it never does.
all_of() {
    sed -n '1s/^[0-9]* of \([0-9]*\) .*/\1/p' "car$1.out"
}
taken_by() {
    echo $(($(sed -n -e '1s/^\([0-9]*\) of .*; stopped at \$.*/\1/p' -e '1s/^\([0-9]*\) of .*; stopped before .*/\1 + 1/p' \
        -e "1s/.*; stopped at the script's end/0/p" "car$1.out")))
}

# told READ: what a run of two cars then has to tell: of each why it stopped, and its registers; panels and levels.
told() {
    echo "$1 of $(($(all_of 0) + $(all_of 1))) entries read"
    for car in 0 1; do
        sed -e "1s/.*; /car $car: /" -e '/^ /d' -e '/^level /d' -e 's/ saved in car/ saved in two/' "car$car.out"
        { echo "car $car"; grep '^ ' "car$car.out"; grep '^level ' "car$car.out" || echo 'no level'; } >"panel$car"
    done
    wide=$(awk '{ if (length > most) most = length } END { print most + 3 }' panel0)
    paste -d '\n' panel0 panel1 | awk -v wide="$wide" 'NR % 2 { left = $0; next } { printf "%-" wide "s%s\n", left, $0 }'
}

# agrees STATUS READ BOOK SCRIPT WORDS...: a run of two cars comes to what each car's own entries come to.
agrees() {
    wanted_status=$1
    told "$2" >wanted
    shift 2
    # shellcheck disable=SC2086
    ends "$wanted_status" run-two "$@" $look --save0 two0.state --save1 two1.state --force
    same out wanted
    same two0.state car0.state
    same two1.state car1.state
}

# The example, and each car's own entries in it; no line of it has car 1 before car 0.
sed -e 's/#.*//' -e 's/1:[^)]*//' -e 's/0://' "$block" >car0.script
sed -e 's/#.*//' -e 's/0:[^)]*1:/1:/' -e 's/0:.*//' -e 's/1://' "$block" >car1.script
for look in '--columns 7' '--columns 240' '--digits 1 --columns 5' '--digits 2 --columns 8' '--columns 8'; do
    alone 0 "$book"
    alone 1 "$book"
    agrees 0 $(($(all_of 0) + $(all_of 1))) "$book" "$block"
    quiet
done
says out 'level -1  (digits 0,1; ground code 2)   level 6  (digits 1,0; ground code 2)'
cp two0.state two0.example
cp two1.state two1.example
grep -v '^state saved in ' wanted >unsaved
ends 0 run-two "$book" "$block"
same out unsaved
# The demonstration ends with it.
ends 0 run-two "$book" "$block" --digits 2
cp out example.out
ends 0 demo "$examples"
tail -n "$(wc -l <example.out)" out >got
same got example.out

# lines EVENTS...: a line for each event, with cycle*9 for nine lines.
lines() {
    for event in "$@"; do
        case $event in
        *'*'*) yes "${event%\**}" | head -n "${event#*\*}" ;;
        *) echo "$event" ;;
        esac
    done
}

# The lines of one car and then those of the other, or line by line in turn, with each line's car in front.
in_order() {
    for car in "$@"; do sed "s/^/$car: /" "car$car.script"; done >cars.script
}
in_turn() {
    paste -d '\n' car0.script car1.script | awk 'NF { print (NR % 2 ? "0: " : "1: ") $0 }' >cars.script
}

# How many lines there are up to the one with which the second car stops; all of them, if one never does.
lines_read() {
    awk -v stop0="$(taken_by 0)" -v stop1="$(taken_by 1)" '
        $1 == "0:" && ++taken0 == stop0 { at0 = NR }
        $1 == "1:" && ++taken1 == stop1 { at1 = NR }
        END { print at0 && at1 ? (at0 > at1 ? at0 : at1) : NR }' cars.script
}

# both STATUS BOOK WORDS0 WORDS1: the entries of car0.script and car1.script, in three orders, with these words of desk
# run for each car.
both() {
    wanted_status=$1 its_book=$2 words0=$3 words1=$4
    # shellcheck disable=SC2086
    alone 0 "$its_book" $words0
    # shellcheck disable=SC2086
    alone 1 "$its_book" $words1
    words="$(echo "$words0" | sed 's/--[a-z]*/&0/g') $(echo "$words1" | sed 's/--[a-z]*/&1/g')"
    for order in 'in_order 0 1' 'in_order 1 0' in_turn; do
        $order
        # shellcheck disable=SC2086
        agrees "$wanted_status" "$(lines_read)" "$its_book" cars.script $words
    done
}

# A car that has stopped takes nothing more, no reset either, and the other goes on.
lines 'cycle*70' reset 'cycle*70' >car0.script
lines b=1 c=0 'cycle*60' a=1 'cycle*105' a=0 >car1.script
both 0 "$book" '--stop 010' ''
says out 'car 0: stopped at $010'
says out "car 1: stopped at the script's end"
both 0 "$book" '--stop $10' '--stop 0x1000'
both 0 "$book" '' '--stop 010'
says out 'car 1: stopped at $010'
both 0 "$book" '' ''
# The run ends with the entry that stops the second.
both 0 "$book" '--stop 010' '--stop 010'
both 0 "$book" '--stop 010' '--stop 012'
both 0 "$book" '--stop 100' '--stop 013'
# A word that is no instruction is no refusal here.
printf ' LDI $020, 1\n LDI $021, 3\n LDI $007, 4\n DW $F800\n' >cut.asm
ends 0 book make cut.book cut.asm small.wiring small.level
lines 'cycle*9' reset >car0.script
lines 'cycle*2' d=5 cycle a=F 'cycle*3' >car1.script
both 0 cut.book '' ''
says out 'car 0: stopped before a word that is no instruction, at $003'
says out 'car 1: stopped before a word that is no instruction, at $003'
quiet
both 0 cut.book '--stop 003' ''
says out 'car 0: stopped at $003'
both 0 cut.book '' '--stop 001'
lines 'cycle*3' >car1.script
both 0 cut.book '' ''
says out "car 1: stopped at the script's end"
# No entries, of one car or of both.
: >car0.script
both 0 "$book" '' ''
: >car1.script
both 0 "$book" '' ''
says out '0 of 0 entries read'
same two0.state fresh.state
# Each car has its own start and options.
lines 'watchdog*4095' 'cycle*5' 'watchdog*5' >car0.script
cp car0.script car1.script
both 0 "$book" '--options 1' ''
cmp -s two0.state two1.state && wrong "the watchdog of car 0 is that of car 1" || ok
both 0 "$book" '--options 6' '--options 1'
lines b=0 c=0 a=1 'cycle*105' a=0 >car0.script
lines b=7 c=7 a=1 'cycle*105' a=0 >car1.script
both 0 "$book" '--state ready.state' '--state up.state'
both 0 "$book" '--state up.state' '--state ready.state --stop 1FF'
both 0 "$book" '--state ready.state' '--state ready.state'
both 0 "$book" '--state below.state' '--options 3'
lines 'cycle*7' >car0.script
lines 'cycle*5' >car1.script
both 0 halves.book '--stop 004' ''
says out "Timer0's low nibble is frozen as F until \$004 is read"
lines 'cycle*7' 'sound*9' >car0.script
cp car0.script car1.script
both 0 octave.book '' '--stop 006'
both 0 rest.book '--stop 006' ''
# A digit above 7 is told of its car, and both panels are shown.
lines 'cycle*9' >car0.script
lines d=1 >car1.script
high="refused by 9, value 0: the level's high digit is above 7"
both 1 stop.book '' ''
echo "desk: the level of car 0: $high" >wanted
same err wanted
both 1 turned.book '' ''
says err "desk: the level of car 0: refused by 9, value 1: the level's low digit is above 7"
lines d=1 >car0.script
lines 'cycle*9' >car1.script
both 1 stop.book '' ''
echo "desk: the level of car 1: $high" >wanted
same err wanted
lines cycle >car0.script
both 1 stop.book '' ''
{ echo "desk: the level of car 0: $high"; echo "desk: the level of car 1: $high"; } >wanted
same err wanted
# Half a million turns.
printf '(0: cycle 1: cycle sound)*500000' >cars.script
printf 'cycle*500000' >car0.script
printf '(cycle sound)*500000' >car1.script
alone 0 "$book"
alone 1 "$book"
agrees 0 1500000 "$book" cars.script

# reads_as TEXT BYTES: a text and the bytes of its entries are one script of two cars.
reads_as() {
    printf '%b' "$1" >text.script
    # shellcheck disable=SC2059
    printf "$2" >text.bytes
    ends 0 run-two "$book" text.script --save0 text0.state --save1 text1.state --force
    cp out text.out
    ends 0 run-two "$book" text.bytes --raw-script --save0 bytes0.state --save1 bytes1.state --force
    sed 's/ saved in bytes/ saved in text/' out >got
    same got text.out
    same text0.state bytes0.state
    same text1.state bytes1.state
}
reads_as '0: a=1 cycle*2\n1: b=2 reset' '\000\021\000\000\000\000\001\042\001\003'
reads_as '0:a=1 1:b=2' '\000\021\001\042'
reads_as '0 : a=1\n\t1\t:\tb=2  \n' '\000\021\001\042'
reads_as '  # two cars\n\n 0: a=1 # the first\r\n#1: b=2\n1:b=3#none\n\n' '\000\021\001\043'
reads_as '1: $2A sound base watchdog\n0: $05' '\001\052\001\005\001\001\001\002\000\005'
reads_as '(0: cycle 1: sound)*2 a=1' '\000\000\001\005\000\000\001\005\001\021'
reads_as '0: (cycle 1: cycle) a=1' '\000\000\001\000\001\021'
reads_as '0:(a=1 cycle*2)*2' '\000\021\000\000\000\000\000\021\000\000\000\000'
reads_as '(\n0: a=1 (\n1: b=2\n)*2\n0: a=3)*2' '\000\021\001\042\001\042\000\023\000\021\001\042\001\042\000\023'
reads_as '0: cycle*0\n1: a=1 ()*5' '\001\021'
reads_as '\n# nothing\n' ''

# bad_cars LINE WORDS TEXT: the text is refused with the line and the words, and nothing is done.
bad_cars() {
    printf '%b' "$3" >bad.script
    ends 2 run-two "$book" bad.script --save0 never.state --save1 never1.state
    says err "desk: bad.script:$1: $2"
    unbegun
    absent never.state
    absent never1.state
}
for bad in 2: 10: 00: 01: -1: x: cycle: '$1:' 0x1: :; do
    bad_cars 3 "$bad is no car; the cars are 0: and 1:" "0: cycle\n\n $bad cycle"
done
bad_cars 1 '2 : is no car; the cars are 0: and 1:' '2 : cycle'
bad_cars 1 ': is no car; the cars are 0: and 1:' '0:: cycle'
bad_cars 1 'cycle: is no car; the cars are 0: and 1:' '0: cycle:'
which='of which car? In every line 0: or 1: stands before the events'
bad_cars 1 "cycle: $which" 'cycle'
bad_cars 2 "a=1: $which" '0: cycle\na=1 0: cycle'
bad_cars 2 "0: $which" '# no colon\n0 cycle'
bad_cars 1 "0;cycle: $which" '0;cycle'
bad_cars 3 "cycle: $which" '0: (cycle\n# and\ncycle)*2'
bad_cars 2 "cycles: $which" '1: cycle\ncycles'
bad_cars 1 'no event stands behind 0: in this line' '0:'
bad_cars 2 'no event stands behind 1: in this line' '0: cycle\n1: # nothing\n0: cycle'
bad_cars 1 'no event stands behind 0: in this line' '0: 1: cycle'
bad_cars 1 'no event stands behind 0: in this line' '0:\ncycle*100\n'
bad_cars 1 'no event stands behind 1: in this line' '1: ()*2\n0: cycle'
bad_cars 1 'no event stands behind 0: in this line' '0: (\n1: cycle)*2'
for bad in cycles 0 e=1 'a=G' '$123' '*5'; do
    bad_cars 2 "$bad is no event (desk run-two --help lists them)" "0: cycle\n1: $bad"
done
bad_cars 2 'cycle*x: how many times?' '0: cycle\n1: cycle*x'
bad_cars 1 ')*: how many times?' '0: (cycle)*'
bad_cars 1 ')*2:: how many times?' '0: (cycle)*2: cycle'
bad_cars 2 'the group that begins here has no ) at its end' '0: cycle\n1: (cycle\n0: cycle'
bad_cars 2 ')*3 closes a group that no ( opens' '0: cycle\n)*3'
bad_cars 2 'the script has more than 536870912 entries' '0: cycle\n1: cycle*536870912'
bad_cars 1 'the script has more than 536870912 entries' '(0: cycle*1000 1: cycle*1000)*300000'
printf '0: cycle\0000: cycle' >nul.script
ends 2 run-two "$book" nul.script
says err 'nul.script is no text'
# A script of the one kind is none of the other.
ends 2 run-two "$book" "$script"
says err "desk: $script:3: cycle: $which"
ends 2 run "$book" "$block"
says err "desk: $block:4: 0: is no event"

# bad_entry NUMBER VALUE WORDS ENTRY BYTES: a script is refused in these words, with the entry's car and event behind
# them, and nothing is done.
bad_entry() {
    # shellcheck disable=SC2059
    printf "$5" >bad.bytes
    {
        echo "desk: the run of two cars: refused by $1, value $2: $3"
        echo "  entry $(($2 / 2)), counted from 0, has the car $4"
    } >wanted
    cp ready.state kept0
    ends 1 run-two "$book" bad.bytes --raw-script --state0 ready.state --save0 ready.state --save1 never.state --force
    same err wanted
    unbegun
    same ready.state kept0
    absent never.state
}
bad_entry 27 0 'place 0 of the script, counted from 0, has a car above 1' '2 and the event $00' '\002\000'
bad_entry 27 4 'place 4 of the script, counted from 0, has a car above 1' '255 and the event $11' '\000\000\001\000\377\021\002\000'
bad_entry 27 2 'place 2 of the script, counted from 0, has a car above 1' '7 and no event' '\000\000\007'
bad_entry 27 2 'place 2 of the script, counted from 0, has a car above 1' '3 and the event $00' '\000\000\003\000\001'
cut='the script ends behind the car at place'
bad_entry 28 0 "$cut 0, counted from 0, with no event for it" '1 and no event' '\001'
bad_entry 28 4 "$cut 4, counted from 0, with no event for it" '0 and no event' '\000\000\001\000\000'
bad_entry 5 1 'place 1 of the script, counted from 0, has an unknown event' '0 and the event $50' '\000\120\001\120'
bad_entry 5 3 'place 3 of the script, counted from 0, has an unknown event' '1 and the event $04' '\000\000\001\004\000'
bad_entry 5 5 'place 5 of the script, counted from 0, has an unknown event' '9 and the event $FF' '\002\000\000\000\011\377\001'
# The event of a text too, and in a script of one car as before.
printf '0: cycle\n1: cycle $50' >bad.script
ends 1 run-two "$book" bad.script
says err 'refused by 5, value 5: place 5 of the script, counted from 0, has an unknown event'
says err '  entry 2, counted from 0, has the car 1 and the event $50'
ends 1 run "$book" unknown.script
says err 'desk: the run: refused by 5, value 1: place 1 of the script, counted from 0, has an unknown event'

# bad_start CAR NUMBER VALUE WORDS...: the state of that car is refused, and nothing is done.
bad_start() {
    car=$1 number=$2 value=$3
    shift 3
    ends 1 run-two "$book" "$block" "$@" --save0 never.state --save1 never1.state
    says err "desk: the state of car $car: refused by $number, value $value:"
    unbegun
    absent never.state
    absent never1.state
}
{ head -c 768 end.state; printf '\020'; tail -c +770 end.state; } >display.state
bad_start 0 3 0 --state0 cell.state
bad_start 1 3 0 --state1 cell.state
bad_start 0 3 0 --state0 cell.state --state1 display.state
bad_start 0 3 768 --state0 display.state --state1 cell.state
bad_start 0 4 0 --state0 record.state
bad_start 1 4 0 --state1 record.state
bad_start 0 4 0 --state0 record.state --state1 record.state
bad_start 1 3 768 --state0 record.state --state1 display.state
bad_start 0 3 768 --state0 display.state --state1 record.state
for car in 0 1; do
    ends 1 run-two "$book" "$block" --options$car 9 --save0 never.state
    says err "desk: a fresh machine for car $car: refused by 12, value 9"
    unbegun
    ends 2 run-two "$book" "$block" --options$car x --save0 never.state
    says err 'a number up to 4294967295 is due here, not x'
    ends 2 run-two "$book" "$block" --options$car 1 --state$car ready.state --save0 never.state
    says err 'options are for a fresh machine, so not with the state ready.state'
    ends 2 run-two "$book" "$block" --state$car nowhere.state --save0 never.state
    says err 'cannot read nowhere.state'
    ends 2 run-two "$book" "$block" --state$car short.state --save0 never.state
    says err 'short.state is no state'
    ends 2 run-two "$book" "$block" --state$car old.state --save0 never.state
    says err 'old.state is a state of a version before'
    ends 2 run-two "$book" "$block" --stop$car 12G --save0 never.state
    says err 'not a hex number up to FFFFFFFF: 12G'
    ends 2 run-two "$book" "$block" --stop$car
    says err "a value is due after --stop$car"
    # What is in the way of a car's state.
    ends 2 run-two "$book" "$block" --save$car end.state
    says err 'end.state exists and is left as it is; --force writes over it'
    unbegun
    ends 2 run-two "$book" "$block" --save$car nowhere/a.state
    says err 'cannot write nowhere/a.state'
    unbegun
    for odd in pipe link dangling folder; do
        ends 2 run-two "$book" "$block" --save$car $odd --force
        says err "cannot write $odd: it is no ordinary file"
        unbegun
    done
    # One is saved and the other not.
    ends 0 run-two "$book" "$block" --save$car only$car.state
    says out "state saved in only$car.state"
    same only$car.state "two$car.example"
done
absent never.state
ends 1 run "$book" "$script" --options 9
says err 'desk: a fresh machine: refused by 12, value 9'
ends 2 run "$book" "$script" --options 1 --state ready.state
says err 'options are for a fresh machine, so not with the state ready.state'
for word in --stop --state --options --save --watch --wav --show; do
    ends 2 run-two "$book" "$block" $word never.state
    says err "unknown option $word"
done
ends 2 run-two "$book" "$block" more
says err 'one word too many: more'
ends 2 run-two "$book" "$block" --columns 0
says err 'at least one column is due after --columns'
ends 2 run-two "$book" "$block" --digits 3 --save0 never.state
says err '3 digits need 21 elements, and the wiring has 16'
unbegun
ends 2 run-two "$book" nowhere.script --save0 never.state
says err 'cannot read nowhere.script'
ends 2 run-two nowhere.book "$block" --save0 never.state
says err 'cannot read nowhere.book'
ends 1 run-two example.out "$block" --save0 never.state
says err 'example.out: refused by 10, value 0'
absent never.state
# Two states go into two files, whatever they are called.
ends 2 run-two "$book" "$block" --save0 never.state --save1 never.state --force
says err 'the states of two cars go into two files, not both into never.state'
unbegun
absent never.state
cp end.state kept
ends 2 run-two "$book" "$block" --save0 end.state --save1 ./end.state --force
says err 'the states of two cars go into two files, not both into ./end.state'
unbegun
same end.state kept
ends 2 run-two "$book" "$block" --save0 twice.state --save1 ./twice.state --force
says out 'state saved in twice.state'
says err 'the state is not saved: ./twice.state is the file of car 0, twice.state'
same twice.state two0.example
no_parts

echo "desk: programs on paper"
# line_is NUMBER TEXT: the last run's output has this line at that place.
line_is() {
    if [ "$(sed -n "$1p" out)" = "$2" ]; then ok; else wrong "$said: line $1 is '$(sed -n "$1p" out)', not '$2'"; fi
}

ends 0 listing "$book"
quiet
cp out example.lst
line_is 1 '000 E012 JMP 012'
line_is 17 '010 D800 HALT'
line_is 20 '013 7A07 LDI 007 4'
line_is 26 '019 7F22 LDI 022 E'
line_is 49 '030 7810 LDI 010 0'
line_is 261 '104 D066 RTNW 6 6'
line_is 512 '1FF F7FF TJMP'
line_is 4096 'FFF FFFF NOP'
line_is 4097 ''
# The paper's own lines.
printf ' ORG $011\n ADIM $020, 1\n ORG $013\n STA $0A0\n ORG $020\n DAA $07F\n ORG $022\n RTNW 4, 2\n ORG $026\n JMP $ABC
 ORG $029\n DW $CB80\n ORG $A34\n BNC $923\n' >paper.asm
ends 0 book make paper.book paper.asm small.wiring small.level
ends 0 listing paper.book
line_is 18 '011 48A0 ADIM 020 1'
line_is 20 '013 3CA0 STA 0A0'
line_is 33 '020 CB7F DAA 07F'
line_is 35 '022 D042 RTNW 4 2'
line_is 39 '026 EABC JMP ABC'
line_is 42 '029 CB80 DATA'
line_is $((0xA34 + 1)) 'A34 8923 BNC 123'

# round_trip BOOK: its program's listing, from standard output and from a file, comes back as the book's own bytes.
round_trip() {
    ends 0 listing "$1"
    quiet
    cp out trip.lst
    ends 0 listing "$1" --out file.lst --force
    says out "file.lst: the listing of $1, 4096 lines"
    quiet
    same trip.lst file.lst
    ends 0 program file.lst trip.bin --force
    says out 'trip.bin: a program of 8192 bytes'
    quiet
    tail -c +17 "$1" | head -c 8192 >wanted
    same trip.bin wanted
}

for one in "$book" stop.book twelve.book halves.book sounding.book paper.book; do round_trip "$one"; done
# All 65,536 words, in sixteen books.
for sixteenth in 0 1 2 3 4 5 6 7 8 9 10 11 12 13 14 15; do
    awk -v first=$((4096 * sixteenth)) 'BEGIN { for (at = 0; at < 4096; at++) printf " DW %d\n", first + at }' >words.asm
    ends 0 book make words.book words.asm small.wiring small.level --force
    round_trip words.book
done
# A book is made again from its program's listing.
ends 0 program example.lst again.bin
tail -c +8209 "$book" | head -c 48 >wiring.bin
tail -c 5 "$book" >level.bin
ends 0 book make again.book again.bin wiring.bin level.bin
same again.book "$book"
rm again.book

# Where writers are shown, by desk writers or by a watched run, they have their lines of the listing.
are_lines() {
    sed -n -e 's/  ; wherever .*//' -e 's/^  \([0-9A-F]\{3\} [0-9A-F]\{4\} .*\)/\1/p' -e 's/^  event .*  by  //p' out | sort -u >shown
    grep -Fx -f shown example.lst | sort >lines
    if [ -s shown ]; then ok; else wrong "$said: no lines"; fi
    same shown lines
}
ends 0 writers "$book" --level
are_lines
for cell in 020 022 025 027 300 304 16F; do
    ends 0 writers "$book" $cell
    are_lines
done
ends 0 run "$book" "$script" --watch 300 --watch-level
are_lines

# is_no_listing VALUE LINES...: the text in bad.lst is refused with this value and these words, and nothing else is said
# or done.
is_no_listing() {
    value=$1
    shift
    {
        printf 'desk: bad.lst: refused by 26, value %d: the text is no listing; ' "$value"
        if [ "$value" -lt 4096 ]; then
            printf 'the first line that is missing or not as it must be is line %d of the file, counted from 1, that of address %03X\n' \
                $((value + 1)) "$value"
        else
            printf 'its 4096 lines are good, but more stands behind them\n'
        fi
        for told in "$@"; do printf '  %s\n' "$told"; done
    } >wanted
    ends 1 program bad.lst never.bin
    if cmp -s err wanted; then ok; else wrong "$said: not told as it must be:"; diff err wanted; fi
    unbegun
    absent never.bin
}

# edited LINE EDIT WORDS...: the example's listing, edited in that line, has a bad line there.
edited() {
    sed "$1$2" example.lst >bad.lst
    value=$(($1 - 1))
    shift 2
    is_no_listing "$value" "$@"
}

nothing='no address, no word and no mnemonic stand in it'
: >bad.lst
is_no_listing 0 'the file is empty; a listing has 4096 lines'
printf '\n' >bad.lst
is_no_listing 0 'line 1 is ""' "$nothing"
printf 'x' >bad.lst
is_no_listing 0 'line 1 is "x"' 'the file ends in it, and the line feed at its end is missing' \
    'it has small letters; a listing has capitals alone' 'its first item is "x", not the address 000'
# Cut: between lines, within one, and before the last line feed.
head -n 19 example.lst >bad.lst
is_no_listing 19 'the file ends before this line; a listing has 4096 lines'
head -n 4095 example.lst >bad.lst
is_no_listing 4095 'the file ends before this line; a listing has 4096 lines'
{ head -n 19 example.lst; printf '013'; } >bad.lst
is_no_listing 19 'line 20 is "013"' 'the file ends in it, and the line feed at its end is missing' \
    'behind the address it has no word of four hexadecimal digits'
{ head -n 19 example.lst; printf '013 7A07 LDI'; } >bad.lst
is_no_listing 19 'line 20 is "013 7A07 LDI"' 'the file ends in it, and the line feed at its end is missing' \
    'the word 7A07 is written LDI 007 4; its line is "013 7A07 LDI 007 4"'
head -c $(($(wc -c <example.lst) - 1)) example.lst >bad.lst
is_no_listing 4095 'line 4096 is "FFF FFFF NOP"' 'the file ends in it, and the line feed at its end is missing'
# More behind the last line.
{ cat example.lst; printf '\n'; } >bad.lst
is_no_listing 4096 'behind the last line, that of address FFF, 1 byte stands: "\n"'
{ cat example.lst; printf '1000 FFFF NOP\n'; } >bad.lst
is_no_listing 4096 'behind the last line, that of address FFF, 14 bytes stand: "1000 FFFF NOP\n"'
{ cat example.lst; printf '\032'; } >bad.lst
is_no_listing 4096 'behind the last line, that of address FFF, 1 byte stands: "\x1A"'
cat example.lst example.lst >bad.lst
is_no_listing 4096 "behind the last line, that of address FFF, $(wc -c <example.lst) bytes stand: \"000 E012 JMP 012\\n001 E01F JMP 01F\\n002 D400 RTNI\\n003 D400 RTN\" and $(($(wc -c <example.lst) - 60)) bytes more"
# Line ends, byte order marks, small letters.
sed 's/$/\r/' example.lst >bad.lst
is_no_listing 0 'line 1 is "000 E012 JMP 012\r"' "it ends in CR LF; a listing's lines end in LF alone"
edited 20 's/$/\r/' 'line 20 is "013 7A07 LDI 007 4\r"' "it ends in CR LF; a listing's lines end in LF alone"
edited 20 's/4$/5\r/' 'line 20 is "013 7A07 LDI 007 5\r"' "it ends in CR LF; a listing's lines end in LF alone" \
    'the word 7A07 is written LDI 007 4; its line is "013 7A07 LDI 007 4"' 'LDI 007 5 is the word 7A87'
edited 20 's/.*/\r/' 'line 20 is "\r"' "it ends in CR LF; a listing's lines end in LF alone" "$nothing"
head -n 3 example.lst | tr '\n' '\r' >bad.lst
is_no_listing 0 'line 1 is "000 E012 JMP 012\r001 E01F JMP 01F\r002 D400 RTNI\r"' \
    'the file ends in it, and the line feed at its end is missing' \
    'it has "\r"; a listing has digits, capitals, spaces and line feeds alone' \
    'the word E012 is written JMP 012; its line is "000 E012 JMP 012"'
{ printf '\357\273\277'; cat example.lst; } >bad.lst
is_no_listing 0 'line 1 is "\xEF\xBB\xBF000 E012 JMP 012"' \
    'the file begins with the byte order mark of UTF-8 (EF BB BF); a listing has none'
printf '\357\273\277\n' >bad.lst
is_no_listing 0 'line 1 is "\xEF\xBB\xBF"' \
    'the file begins with the byte order mark of UTF-8 (EF BB BF); a listing has none' "$nothing"
printf '\377\376\060\000\n\000' >bad.lst
is_no_listing 0 'line 1 is "\xFF\xFE0\x00"' 'the file begins with the byte order mark of UTF-16 (FF FE); a listing has none' \
    'it has "\x00"; a listing has digits, capitals, spaces and line feeds alone' 'its first item is "0\x00", not the address 000'
printf '\376\377\000\060\000\n' >bad.lst
is_no_listing 0 'line 1 is "\xFE\xFF\x000\x00"' \
    'the file begins with the byte order mark of UTF-16 (FE FF); a listing has none' \
    'it has "\x00"; a listing has digits, capitals, spaces and line feeds alone' \
    'its first item is "\x000\x00", not the address 000'
edited 2 's/^/\xEF\xBB\xBF/' 'line 2 is "\xEF\xBB\xBF001 E01F JMP 01F"' \
    'it has "\xEF"; a listing has digits, capitals, spaces and line feeds alone' \
    'its first item is "\xEF\xBB\xBF001", not the address 001'
small='it has small letters; a listing has capitals alone'
tr '[:upper:]' '[:lower:]' <example.lst >bad.lst
is_no_listing 0 'line 1 is "000 e012 jmp 012"' "$small" 'the word E012 is written JMP 012; its line is "000 E012 JMP 012"'
edited 11 's/A/a/' 'line 11 is "00a FFFF NOP"' "$small" 'the word FFFF is written NOP; its line is "00A FFFF NOP"'
edited 20 's/7A07/7a07/' 'line 20 is "013 7a07 LDI 007 4"' "$small" \
    'the word 7A07 is written LDI 007 4; its line is "013 7A07 LDI 007 4"'
edited 26 's/E$/e/' 'line 26 is "019 7F22 LDI 022 e"' "$small" \
    'the word 7F22 is written LDI 022 E; its line is "019 7F22 LDI 022 E"'
# Blanks and other characters.
ldi='the word 7A07 is written LDI 007 4; its line is "013 7A07 LDI 007 4"'
alone='a listing has digits, capitals, spaces and line feeds alone'
edited 20 's/.*//' 'line 20 is ""' "$nothing"
edited 20 's/.*/  /' 'line 20 is "  "' "$nothing"
edited 20 's/$/ /' 'line 20 is "013 7A07 LDI 007 4 "' 'it has a blank at its end' "$ldi"
edited 20 's/^/ /' 'line 20 is " 013 7A07 LDI 007 4"' 'it has a blank before the address' "$ldi"
for at in 1 2 3 4; do
    edited 20 "s/ /  /$at" "line 20 is \"$(sed -n "20s/ /  /${at}p" example.lst)\"" \
        'it has more than one blank between two items; one space is due' "$ldi"
done
edited 20 's/ /\t/2' 'line 20 is "013 7A07\tLDI 007 4"' "it has \"\\t\"; $alone" "$ldi"
edited 20 's/007 4/$007, 4/' 'line 20 is "013 7A07 LDI $007, 4"' "it has \"\$\"; $alone" "$ldi"
edited 20 's/007 4/007,4/' 'line 20 is "013 7A07 LDI 007,4"' "it has \",\"; $alone" "$ldi"
edited 20 's/LDI/"\\"/' 'line 20 is "013 7A07 \"\\\" 007 4"' "it has \"\\\"\"; $alone" "$ldi"
edited 20 's/LDI/L\xC3\xA4I/' 'line 20 is "013 7A07 L\xC3\xA4I 007 4"' "it has \"\\xC3\"; $alone" "$ldi"
edited 20 's/007 4/007 4 ; on/' 'line 20 is "013 7A07 LDI 007 4 ; on"' "$small" "it has \";\"; $alone" "$ldi"
# Addresses, words and what stands behind them.
edited 20 d 'line 20 is "014 7A93 LDI 013 5"' 'its first item is "014", not the address 013'
sed 20p example.lst >bad.lst
is_no_listing 20 'line 21 is "013 7A07 LDI 007 4"' 'its first item is "013", not the address 014'
edited 20 's/013 /013/' 'line 20 is "0137A07 LDI 007 4"' 'its first item is "0137A07", not the address 013'
edited 20 's/013 /0013 /' 'line 20 is "0013 7A07 LDI 007 4"' 'its first item is "0013", not the address 013'
edited 20 's/013 //' 'line 20 is "7A07 LDI 007 4"' 'its first item is "7A07", not the address 013'
edited 20 's/7A07/7A0/' 'line 20 is "013 7A0 LDI 007 4"' 'behind the address it has no word of four hexadecimal digits'
edited 20 's/7A07/7A07LDI/' 'line 20 is "013 7A07LDI LDI 007 4"' \
    'behind the address it has no word of four hexadecimal digits'
edited 20 's/7A07/7A0G/' 'line 20 is "013 7A0G LDI 007 4"' 'behind the address it has no word of four hexadecimal digits'
edited 20 's/7A07/7A87/' 'line 20 is "013 7A87 LDI 007 4"' \
    'the word 7A87 is written LDI 007 5; its line is "013 7A87 LDI 007 5"' 'LDI 007 4 is the word 7A07'
edited 20 's/7A07/C800/' 'line 20 is "013 C800 LDI 007 4"' \
    'the word C800 is written DATA; its line is "013 C800 DATA"' 'LDI 007 4 is the word 7A07'
edited 20 's/7A07 .*/7A07/' 'line 20 is "013 7A07"' "$ldi"
edited 20 's/LDI.*/DATA/' 'line 20 is "013 7A07 DATA"' "$ldi"
edited 20 's/LDI/ADI/' 'line 20 is "013 7A07 ADI 007 4"' "$ldi" 'ADI 007 4 is the word 4207'
edited 20 's/LDI/LOAD/' 'line 20 is "013 7A07 LOAD 007 4"' "$ldi"
edited 20 's/007 4/007/' 'line 20 is "013 7A07 LDI 007"' "$ldi"
edited 20 's/007 4/007 4 5/' 'line 20 is "013 7A07 LDI 007 4 5"' "$ldi"
edited 20 's/007 4/7 4/' 'line 20 is "013 7A07 LDI 7 4"' "$ldi"
edited 4096 's/NOP/STA 3FF/' 'line 4096 is "FFF FFFF STA 3FF"' \
    'the word FFFF is written NOP; its line is "FFF FFFF NOP"' 'STA 3FF is the word 3FFF'
# Long lines and long files.
edited 20 's/$/XXXXXXXXXXXXXXXXXXXXXXXXXXXXXXXXXXXXXXXXXXX/' \
    'line 20 is "013 7A07 LDI 007 4XXXXXXXXXXXXXXXXXXXXXXXXXXXXXXXXXXXXXXXXXX" and 1 byte more' "$ldi"
head -c 300000 /dev/zero | tr '\000' 7 >bad.lst
sevens=777777777777
is_no_listing 0 "line 1 is \"$sevens$sevens$sevens$sevens$sevens\" and 299940 bytes more" \
    'the file ends in it, and the line feed at its end is missing' \
    "its first item is \"$sevens\" and 299988 bytes more, not the address 000"
head -c 1048576 /dev/zero | tr '\000' '\n' >bad.lst
is_no_listing 0 'line 1 is ""' "$nothing"
printf '\n' >>bad.lst
ends 2 program bad.lst never.bin
says err 'bad.lst is too long: more than 1048576 bytes'
ends 1 program "$book" never.bin
says err "$book: refused by 26, value 0"
absent never.bin
# What is in the way, or wrong. What is refused leaves the file.
sed '20s/LDI/ldi/' example.lst >bad.lst
cp again.bin kept
ends 1 program bad.lst again.bin --force
same again.bin kept
ends 2 program example.lst again.bin
says err 'again.bin exists and is left as it is; --force writes over it'
same again.bin kept
ends 0 program file.lst again.bin --force
same again.bin trip.bin
cp example.lst kept
ends 2 listing stop.book --out example.lst
says err 'example.lst exists and is left as it is; --force writes over it'
unbegun
same example.lst kept
ends 0 listing stop.book --out stop.lst
ends 0 listing stop.book
same out stop.lst
ends 0 listing "$book" --out stop.lst --force
same stop.lst example.lst
for odd in pipe link dangling folder; do
    ends 2 listing "$book" --out $odd --force
    says err "cannot write $odd: it is no ordinary file"
    unbegun
    ends 2 program example.lst $odd --force
    says err "cannot write $odd: it is no ordinary file"
    unbegun
done
if [ -p pipe ] && [ -L link ] && [ -L dangling ] && [ -d folder ]; then ok; else wrong "something odd was replaced"; fi
ends 2 listing "$book" --out nowhere/a.lst
says err 'cannot write nowhere/a.lst'
unbegun
ends 2 program example.lst nowhere/a.bin
says err 'cannot write nowhere/a.bin'
ends 2 listing nowhere.book
says err 'cannot read nowhere.book'
ends 2 listing folder
says err 'cannot read folder: Is a directory'
ends 2 program nowhere.lst never.bin
says err 'cannot read nowhere.lst'
ends 2 program folder never.bin
says err 'cannot read folder: Is a directory'
ends 1 listing example.lst --out never.lst
says err 'example.lst: refused by 10, value 0'
unbegun
ends 2 listing "$book" --out
says err 'a value is due after --out'
ends 2 listing "$book" --force
says err '--force is for the file of --out'
ends 2 listing "$book" one.lst
says err 'one word too many: one.lst'
ends 2 program example.lst
says err 'something is missing'
ends 2 program example.lst never.bin more
says err 'one word too many: more'
ends 2 program example.lst never.bin --out never.lst
says err 'unknown option --out'
absent never.bin
absent never.lst
no_parts
(umask 027 && "$desk" listing "$book" --out masked.lst >/dev/null)
case $(ls -l masked.lst) in -rw-r-----*) ok ;; *) wrong "a listing's mode does not follow the umask" ;; esac
# A listing that lacks a line is found out.
proved=$desk
desk=$torn
for command in "listing $book" "writers $book --level" "xref $book" "patch $book 027 3C21 never.book" \
    "report $book --out never.html" "book check $book" 'book make never.book stop.asm small.wiring small.level'; do
    # shellcheck disable=SC2086
    ends 3 $command
    says err "desk: FAULT: the library's listing: a line is missing, too short or too long"
    says err 'report it'
    unbegun
done
absent never.book
absent never.html
desk=$proved

echo "desk: a cross-reference"
# The cells that have a list of writers: data, display, scan.
cells=$(awk 'BEGIN {
    for (cell = 32; cell <= 367; cell++) printf "%03X ", cell
    for (cell = 768; cell <= 840; cell++) printf "%03X ", cell
    for (cell = 856; cell <= 877; cell++) printf "%03X ", cell }')

cat >wanted <<'END'
through $00F, writers of every data, display and scan cell: 2
  04A 3C0F STA 00F  ; wherever the pointer $012, $011, $010 stands
  04D 3C0F STA 00F  ; wherever the pointer $012, $011, $010 stands
data cells $020-$16F: 8 of 336 have writers of their own, 25 in all
cell $020 (high digit of the level): 4 instructions can change it, 2 of its own and 2 through $00F
  015 7820 LDI 020 0
  027 3C20 STA 020
cell $021 (low digit of the level): 4 instructions can change it, 2 of its own and 2 through $00F
  016 7921 LDI 021 2
  02B 3C21 STA 021
cell $022: 15 instructions can change it, 13 of its own and 2 through $00F
  019 7F22 LDI 022 E
  01B 7B22 LDI 022 6
  025 3C22 STA 022
  026 73A2 ANDIM 022 7
  029 3C22 STA 022
  02A 73A2 ANDIM 022 7
  038 7822 LDI 022 0
  03F 7822 LDI 022 0
  041 78A2 LDI 022 1
  043 7922 LDI 022 2
  046 3C22 STA 022
  05E 7EA2 LDI 022 D
  061 7822 LDI 022 0
cell $023: 3 instructions can change it, 1 of its own and 2 through $00F
  021 3C23 STA 023
cell $024: 3 instructions can change it, 1 of its own and 2 through $00F
  023 3C24 STA 024
cell $025: 4 instructions can change it, 2 of its own and 2 through $00F
  064 7825 LDI 025 0
  067 58A5 SBIM 025 1
cell $026: 4 instructions can change it, 2 of its own and 2 through $00F
  065 7826 LDI 026 0
  069 58A6 SBIM 026 1
cell $027: 4 instructions can change it, 2 of its own and 2 through $00F
  066 7927 LDI 027 2
  06B 58A7 SBIM 027 1
display cells $300-$348: 1 of 73 has writers of its own, 1 in all
cell $304: 3 instructions can change it, 1 of its own and 2 through $00F
  044 3F04 STA 304
scan cells $358-$36D: none of 22 has writers of its own
END
ends 0 xref "$book" --all
same out wanted
quiet
are_lines
ends 0 xref --all "$book"
same out wanted
# Without an option the same, but for the instructions.
ends 0 xref "$book"
grep -v '^  ' wanted >heads
same out heads
quiet
# The paper's twelfth number: adding 0 and keeping all bits change nothing.
cat >wanted <<'END'
through $00F, writers of every data, display and scan cell: 1
  012 3C0F STA 00F  ; wherever the pointer $012, $011, $010 stands
data cells $020-$16F: 2 of 336 have writers of their own, 2 in all
cell $020 (high digit of the level): 2 instructions can change it, 1 of its own and 1 through $00F
  011 48A0 ADIM 020 1
cell $021 (low digit of the level): 1 instruction can change it, 0 of its own and 1 through $00F
cell $0A0: 2 instructions can change it, 1 of its own and 1 through $00F
  013 3CA0 STA 0A0
display cells $300-$348: none of 73 has writers of its own
scan cells $358-$36D: none of 22 has writers of its own
END
ends 0 xref twelve.book --all
same out wanted
cat >wanted <<'END'
cell $020 (high digit of the level): 2 instructions can change it
  011 48A0 ADIM 020 1
  012 3C0F STA 00F  ; wherever the pointer $012, $011, $010 stands
END
ends 0 xref twelve.book --cell 020
same out wanted
quiet
# The first and the last cell of each kind, between neighbours that have no list; nothing through $00F.
printf ' STA $%s\n' 01F 020 16F 170 2FF 300 348 349 357 358 36D 36E 370 >edges.asm
printf 'high $358 low $348 ground 2' >edges.level
ends 0 book make edges.book edges.asm small.wiring edges.level
cat >wanted <<'END'
through $00F, writers of every data, display and scan cell: none
data cells $020-$16F: 2 of 336 have writers of their own, 2 in all
cell $020: 1 instruction can change it, 1 of its own and 0 through $00F
  001 3C20 STA 020
cell $16F: 1 instruction can change it, 1 of its own and 0 through $00F
  002 3D6F STA 16F
display cells $300-$348: 2 of 73 have writers of their own, 2 in all
cell $300: 1 instruction can change it, 1 of its own and 0 through $00F
  005 3F00 STA 300
cell $348 (low digit of the level): 1 instruction can change it, 1 of its own and 0 through $00F
  006 3F48 STA 348
scan cells $358-$36D: 2 of 22 have writers of their own, 2 in all
cell $358 (high digit of the level): 1 instruction can change it, 1 of its own and 0 through $00F
  009 3F58 STA 358
cell $36D: 1 instruction can change it, 1 of its own and 0 through $00F
  00A 3F6D STA 36D
END
ends 0 xref edges.book --all
same out wanted
# No writers at all: the level's digits are told all the same.
printf ' NOP\n' >none.asm
ends 0 book make none.book none.asm small.wiring small.level
cat >wanted <<'END'
through $00F, writers of every data, display and scan cell: none
data cells $020-$16F: none of 336 has writers of its own
cell $020 (high digit of the level): no instruction can change it
cell $021 (low digit of the level): no instruction can change it
display cells $300-$348: none of 73 has writers of its own
scan cells $358-$36D: none of 22 has writers of its own
END
ends 0 xref none.book --all
same out wanted
ends 0 xref none.book
same out wanted
echo 'cell $36D: no instruction can change it' >wanted
ends 0 xref none.book --cell 36D
same out wanted

# joined: what desk xref --all has shown, as a list of writers for each cell: its lines, with the cell before each.
joined() {
    awk -v cells="$cells" '
        /^through / { group = "through" }
        /^cell / { group = substr($2, 2, 3) }
        /^  / { lines[group] = lines[group] substr($0, 3) "\n" }
        END {
            count = split(cells, cell, " ")
            for (at = 1; at <= count; at++) {
                last = split(lines["through"] lines[cell[at]], line, "\n")
                for (one = 1; one < last; one++) print cell[at], line[one]
            }
        }' | sort
}

# answers BOOK: cell after cell, asked of the tables and shown with all, the writers are those of desk writers.
answers() {
    for cell in $cells; do
        "$desk" writers "$1" "$cell" >&3
        "$desk" xref "$1" --cell "$cell" >&4
    done 3>listed 4>asked 2>err
    sed 's/ ([a-z]* digit of the level)//' asked >got
    same got listed
    awk '/^cell / { cell = substr($2, 2, 3) } /^  / { print cell, substr($0, 3) }' listed | sort >wanted
    ends 0 xref "$1" --all
    cp out all
    joined <out >got
    same got wanted
    ends 0 xref "$1"
    grep -v '^  ' all >heads
    same out heads
}
answers "$book"
# Words of all kinds, some of them with $00F, at every fourth address.
awk 'BEGIN {
    for (at = 0; at < 1024; at++) {
        word = (word * 25173 + 13849) % 65536
        printf " ORG %d\n DW %d\n", 4 * at + 3, at % 16 == 5 ? word - word % 128 + 15 : word
    } }' >kinds.asm
ends 0 book make kinds.book kinds.asm small.wiring small.level
answers kinds.book
# As many as are told are shown.
awk '
    /^[cdst]/ { if (seen != told) bad++; seen = told = 0 }
    /^through / { told = pointed = $NF }
    /^cell / { told = $(NF - 7); if ($(NF - 2) != pointed || $(NF - 12) != told + pointed) bad++ }
    /^  / { seen++; all++ }
    END { exit bad > 0 || seen != told || pointed < 9 || all < 150 }' all && ok || wrong "$said: not as many as are told"
for digit in 020 021; do
    ends 0 xref "$book" --cell $digit
    cp out digit$digit
done
cat digit020 digit021 >wanted
ends 0 writers "$book" --level
same out wanted
for cell in '$20' 0x020 0X20 00000020; do
    ends 0 xref "$book" --cell "$cell"
    same out digit020
done
for cell in 000 00F 01F 170 2FF 349 357 36E 370 3FF 400 FFFFFFFF; do
    ends 1 xref "$book" --cell $cell
    echo "desk: the list of writers: refused by 8, value $((0x$cell)): \$$cell is no data cell (\$020-\$16F)," \
        "display cell (\$300-\$348) or scan cell (\$358-\$36D)" >wanted
    same err wanted
    unbegun
done
ends 2 xref "$book" --cell 020 --all
says err '--cell asks for one cell, so not with --all'
says err 'usage: desk xref BOOK [--cell HEX | --all]'
unbegun
ends 2 xref "$book" --cell
says err 'a value is due after --cell'
for cell in zz 100000000 020.1 ''; do
    ends 2 xref "$book" --cell "$cell"
    says err 'not a hex number up to FFFFFFFF'
    unbegun
done
ends 2 xref "$book" 020
says err 'one word too many: 020'
ends 2 xref --all
says err 'something is missing'
ends 2 xref nowhere.book
says err 'cannot read nowhere.book'
ends 2 xref folder --all
says err 'cannot read folder: Is a directory'
ends 1 xref example.lst --cell 020
says err 'example.lst: refused by 10, value 0'
unbegun
# Tables that cannot be are found out.
proved=$desk
desk=$looped
for command in "xref $book" "xref $book --all" "report $book --out never.html"; do
    # shellcheck disable=SC2086
    ends 3 $command
    says err "desk: FAULT: the library's cross-reference: the addresses under a cell do not ascend"
    says err 'report it'
done
for command in "xref $book --cell 304" "patch $book 027 3C21 never.book"; do
    # shellcheck disable=SC2086
    ends 3 $command
    says err 'refused by 29, value 0: the tables are not the cross-reference of the program lent with them'
    says err "desk: FAULT: the library's cross-reference: its own tables were refused"
    says err 'report it'
    unbegun
done
absent never.book
absent never.html
ends 0 xref none.book
quiet
desk=$proved

echo "desk: one word replaced"
cat >wanted <<'END'
before: 027 3C20 STA 020
now:    027 3C21 STA 021
2 of 431 cells have other writers than before (- gone, + new):
cell $020 (high digit of the level): 4 instructions before, 3 now
    015 7820 LDI 020 0
  - 027 3C20 STA 020
    04A 3C0F STA 00F  ; wherever the pointer $012, $011, $010 stands
    04D 3C0F STA 00F  ; wherever the pointer $012, $011, $010 stands
cell $021 (low digit of the level): 4 instructions before, 5 now
    016 7921 LDI 021 2
  + 027 3C21 STA 021
    02B 3C21 STA 021
    04A 3C0F STA 00F  ; wherever the pointer $012, $011, $010 stands
    04D 3C0F STA 00F  ; wherever the pointer $012, $011, $010 stands
patched.book: a book of 8261 bytes
END
ends 0 patch "$book" 027 3C21 patched.book
same out wanted
quiet
# Both lists, before and now, are those of desk writers.
sed -n 's/^  [ -] /  /p' out >was
sed -n 's/^  [ +] /  /p' out >is
ends 0 writers "$book" --level
grep '^  ' out >wanted
same was wanted
ends 0 writers patched.book --level
grep '^  ' out >wanted
same is wanted
# Of the book's bytes, numbered from 1, only the word's second is another: octal 40 before, 41 now.
cmp -l "$book" patched.book | awk '{ print $1, $2, $3 }' >got
echo "$((16 + 2 * 0x027 + 2)) 40 41" >wanted
same got wanted
ends 0 book check patched.book
ends 0 listing patched.book
sed '40s/.*/027 3C21 STA 021/' example.lst >wanted
same out wanted
# Through $00F: shown once, of 430 cells, since the cell that the word named could be changed there before, too.
cat >wanted <<'END'
before: 027 3C20 STA 020
now:    027 3C0F STA 00F
430 of 431 cells have other writers than before (- gone, + new):
through $00F, writers of every data, display and scan cell: 2 instructions before, 3 now
  + 027 3C0F STA 00F  ; wherever the pointer $012, $011, $010 stands
    04A 3C0F STA 00F  ; wherever the pointer $012, $011, $010 stands
    04D 3C0F STA 00F  ; wherever the pointer $012, $011, $010 stands
cell $020 (high digit of the level): 4 instructions before, 4 now
    015 7820 LDI 020 0
  - 027 3C20 STA 020
  + 027 3C0F STA 00F  ; wherever the pointer $012, $011, $010 stands
    04A 3C0F STA 00F  ; wherever the pointer $012, $011, $010 stands
    04D 3C0F STA 00F  ; wherever the pointer $012, $011, $010 stands
pointed.book: a book of 8261 bytes
END
ends 0 patch "$book" 027 3C0F pointed.book
same out wanted
# A word that is no instruction, at which a run then stops.
cat >wanted <<'END'
before: 04A 3C0F STA 00F
now:    04A CB80 DATA
431 of 431 cells have other writers than before (- gone, + new):
through $00F, writers of every data, display and scan cell: 2 instructions before, 1 now
  - 04A 3C0F STA 00F  ; wherever the pointer $012, $011, $010 stands
    04D 3C0F STA 00F  ; wherever the pointer $012, $011, $010 stands
data.book: a book of 8261 bytes
END
ends 0 patch "$book" 04A CB80 data.book
same out wanted
quiet
ends 1 run data.book "$script"
says err 'refused by 6, value 74'
# Another instruction that can change the same cell, and the very word that stands there.
printf '%s\n' 'before: 015 7820 LDI 020 0' 'now:    015 78A0 LDI 020 1' 'no cell has other writers than before' \
    'same.book: a book of 8261 bytes' >wanted
ends 0 patch "$book" 015 78A0 same.book
same out wanted
printf '%s\n' 'before: FFF FFFF NOP' 'now:    FFF FFFF NOP' 'no cell has other writers than before' \
    'same.book: a book of 8261 bytes' >wanted
ends 0 patch "$book" FFF FFFF same.book --force
same out wanted
same same.book "$book"
# One cell alone, which had none.
printf '%s\n' 'before: 800 FFFF NOP' 'now:    800 3F58 STA 358' \
    '1 of 431 cells has other writers than before (- gone, + new):' 'cell $358: 0 instructions before, 1 now' \
    '  + 800 3F58 STA 358' 'one.book: a book of 8219 bytes' >wanted
ends 0 patch none.book 800 3F58 one.book
same out wanted
printf '%s\n' 'before: 800 3F58 STA 358' 'now:    800 FFFF NOP' \
    '1 of 431 cells has other writers than before (- gone, + new):' 'cell $358: 1 instruction before, 0 now' \
    '  - 800 3F58 STA 358' 'again.book: a book of 8219 bytes' >wanted
ends 0 patch one.book 800 FFFF again.book
same out wanted
same again.book none.book
rm again.book

# told_of_patch ADDRESS: which cells a patch at that address has to tell, by what desk xref --all shows of the book
# before (all) and of the book now (all.now).
told_of_patch() {
    awk -v cells="$cells" -v patched="$1" '
        FNR == 1 { side++ }
        /^through / { group = "through" }
        /^cell / { group = substr($2, 2, 3); name[group] = substr($0, 1, index($0, ":")) }
        /^  / { used[$1]; kept[side, group, $1] = substr($0, 3) }
        # The line of an address under a cell, and in the list of the cell, where it can stand through $00F.
        function own(side, group, address) {
            return (side, group, address) in kept ? kept[side, group, address] : ""
        }
        function line(side, group, address) {
            return (side, group, address) in kept ? kept[side, group, address] : own(side, "through", address)
        }
        function others_own(group,    at) {
            for (at = 1; at <= addresses; at++)
                if ((own(1, group, sorted[at]) == "") != (own(2, group, sorted[at]) == "")) return 1
            return 0
        }
        function others(group,    at) {
            for (at = 1; at <= addresses; at++)
                if ((line(1, group, sorted[at]) == "") != (line(2, group, sorted[at]) == "")) return 1
            return 0
        }
        function show(group,    at, address, old, new, was, is, text) {
            for (at = 1; at <= addresses; at++) {
                address = sorted[at]
                old = line(1, group, address)
                new = line(2, group, address)
                was += old != ""
                is += new != ""
                if (old != "") text = text (new != "" && address != patched ? "    " : "  - ") old "\n"
                if (new != "" && (old == "" || address == patched)) text = text "  + " new "\n"
            }
            printf "%s %d instruction%s before, %d now\n%s", name[group], was, was == 1 ? "" : "s", is, text
        }
        END {
            name["through"] = "through $00F, writers of every data, display and scan cell:"
            for (number = 0; number < 4096; number++)
                if (sprintf("%03X", number) in used) sorted[++addresses] = sprintf("%03X", number)
            count = split(cells, cell, " ")
            for (one = 1; one <= count; one++) changed += others(cell[one])
            if (changed == 0) {
                print "no cell has other writers than before"
                exit
            }
            printf "%d of %d cells %s other writers than before (- gone, + new):\n", changed, count,
                changed == 1 ? "has" : "have"
            if (others_own("through")) show("through")
            for (one = 1; one <= count; one++) if (others_own(cell[one])) show(cell[one])
        }' all all.now
}

# replaces BOOK ADDRESS WORD: what is told is so, and there and back again is the same book.
replaces() {
    ends 0 xref "$1" --all
    cp out all
    ends 0 listing "$1"
    line=$(sed -n "$((0x$2 + 1))p" out)
    ends 0 patch "$1" "$2" "$3" there.book --force
    quiet
    cp out there
    ends 0 xref there.book --all
    cp out all.now
    ends 0 listing there.book
    {
        echo "before: $line"
        echo "now:    $(sed -n "$((0x$2 + 1))p" out)"
        told_of_patch "$2"
        echo "there.book: a book of $(($(wc -c <"$1"))) bytes"
    } >wanted
    if cmp -s there wanted; then ok; else wrong "desk patch $*: not told as it must be:"; diff there wanted; fi
    line=${line#* }
    ends 0 patch there.book "$2" "${line%% *}" back.book --force
    same back.book "$1"
}
# Each way between no writer, one of a cell's own and one through $00F, before, between and behind the others.
for at in 000 015 027 044 04A 04D 06B FFF; do
    for word in FFFF CB80 3C20 3F6D 3C0F 4F8F; do
        replaces "$book" $at $word
    done
done
for at in 000 003 117 7FF 817 E17 FFF; do
    for word in FFFF 3C20 3C0F; do
        replaces kinds.book $at $word
    done
done

# Addresses and words as they can be given.
for words in '27 3C21' '$027 3c21' '0x27 $3C21' '0X027 0x3C21' '00000027 0X3c21'; do
    # shellcheck disable=SC2086
    ends 0 patch "$book" $words other.book --force
    same other.book patched.book
done
for address in 1000 FFFFFFFF; do
    ends 1 patch "$book" $address FFFF never.book
    echo "desk: the word at \$$address: refused by 13, value 0: program addresses are \$000 to \$FFF" >wanted
    same err wanted
    unbegun
done
for address in zz 100000000 02G ''; do
    ends 2 patch "$book" "$address" FFFF never.book
    says err 'not a hex number up to FFFFFFFF'
    unbegun
done
for word in 3C2 3C210 03C21 10000 3C2G NOP '$' 0x 0x3C2 '$3C210' -3C2 ''; do
    ends 2 patch "$book" 027 "$word" never.book
    says err "a word has four hex digits, not $word"
    unbegun
done
ends 2 patch "$book" 027 3C21
says err 'something is missing'
ends 2 patch "$book" 027 3C21 never.book more
says err 'one word too many: more'
ends 2 patch "$book" 027 3C21 --out never.book
says err 'unknown option --out'
absent never.book
# What is in the way, or wrong. What is refused leaves the file.
cp patched.book kept
ends 2 patch "$book" 027 3C0F patched.book
says err 'patched.book exists and is left as it is; --force writes over it'
unbegun
same patched.book kept
ends 1 patch "$book" 1000 3C0F patched.book --force
same patched.book kept
ends 1 patch example.lst 027 3C0F patched.book --force
says err 'example.lst: refused by 10, value 0'
same patched.book kept
ends 0 patch "$book" 027 3C0F patched.book --force
same patched.book pointed.book
# A book in its own place.
cp "$book" place.book
ends 2 patch place.book 027 3C21 place.book
says err 'place.book exists and is left as it is; --force writes over it'
same place.book "$book"
ends 0 patch place.book 027 3C21 ./place.book --force
same place.book kept
ends 0 patch place.book 027 3C20 place.book --force
same place.book "$book"
for odd in pipe link dangling folder; do
    ends 2 patch "$book" 027 3C21 $odd --force
    says err "cannot write $odd: it is no ordinary file"
    unbegun
done
if [ -p pipe ] && [ -L link ] && [ -L dangling ] && [ -d folder ]; then ok; else wrong "something odd was replaced"; fi
ends 2 patch "$book" 027 3C21 nowhere/a.book
says err 'cannot write nowhere/a.book'
unbegun
ends 2 patch nowhere.book 027 3C21 never.book
says err 'cannot read nowhere.book'
ends 2 patch folder 027 3C21 never.book
says err 'cannot read folder: Is a directory'
absent never.book
no_parts
(umask 027 && "$desk" patch "$book" 027 3C21 masked.book >/dev/null)
case $(ls -l masked.book) in -rw-r-----*) ok ;; *) wrong "a patched book's mode does not follow the umask" ;; esac
# A replacement that does not keep the tables up, or does not replace the word, is found out before anything is written.
proved=$desk
desk=$stale
for words in '026 3C0F' '02A FFFF' '04A 3C20' '04A CB80'; do
    # shellcheck disable=SC2086
    ends 3 patch "$book" $words never.book
    says err "desk: FAULT: the library's cross-reference: a replacement leaves other tables than a fresh build gives"
    says err 'report it'
    unbegun
done
for words in '027 3C21' 'FFF 0000'; do
    # shellcheck disable=SC2086
    ends 3 patch "$book" $words never.book
    says err "desk: FAULT: the library's cross-reference: a replacement leaves another program than it must"
    says err 'report it'
    unbegun
done
cp kept forced.book
ends 3 patch "$book" 04A 3C20 forced.book --force
same forced.book kept
ends 1 patch "$book" 1000 3C21 never.book
says err 'refused by 13, value 0'
absent never.book
ends 0 patch "$book" 02A 7322 unmoved.book
quiet
desk=$proved

echo "desk: books"
ends 0 book check "$book"
says out 'a good book of 8261 bytes'
says out 'wiring: 16 elements'
says out 'high digit in $020, low digit in $021, ground code 2'
quiet
# The book in the repository is what its sources make.
ends 0 book make again.book "$examples/dispatcher.asm" "$examples/dispatcher.wiring" "$examples/dispatcher.level"
same again.book "$book"
cp again.book kept
ends 2 book make again.book stop.asm small.wiring small.level
says err 'again.book exists'
same again.book kept
ends 0 book make again.book stop.asm small.wiring small.level --force
same again.book stop.book
# Bodies as bytes are taken as they are.
tail -c +17 "$book" | head -c 8192 >program.bin
tail -c +8209 "$book" | head -c 48 >wiring.bin
tail -c 5 "$book" >level.bin
ends 0 book make bytes.book program.bin wiring.bin level.bin
same bytes.book "$book"
head -c 8191 program.bin >short.bin
ends 1 book make never.book short.bin wiring.bin level.bin
says err 'refused by 10, value 0'
ends 1 book make never.book program.bin level.bin level.bin
says err 'refused by 10'
ends 1 book make never.book program.bin wiring.bin wiring.bin
says err 'refused by 10'
printf '$349.0' >bad.wiring
ends 1 book make never.book program.bin bad.wiring level.bin
says err 'refused by 11, value 2'
printf 'high $020 low $020 ground 2' >bad.level
ends 1 book make never.book program.bin wiring.bin bad.level
says err 'refused by 11, value 3'
printf 'high $020 low $021 ground 64' >bad.level
ends 1 book make never.book program.bin wiring.bin bad.level
says err 'refused by 11, value 3'
absent never.book
for bad in '$300' '$300.' '.1' '$300.256' '$10000.0' '$300.x' '$30G.0'; do
    printf '$300.0\n%s' "$bad" >bad.wiring
    ends 2 book make never.book program.bin bad.wiring level.bin
    says err "bad.wiring:2: $bad is no element"
done
for bad in 'high $020 low $021' 'high $020 high $021 low $020 ground 1' 'high low $021 ground 1' 'floor 1' \
    'high $020 low $021 ground 256' 'high $020 low $021 ground'; do
    printf '%s' "$bad" >bad.level
    ends 2 book make never.book program.bin wiring.bin bad.level
    says err 'bad.level'
done
absent never.book
for at in 0 1 2 5 15 8210 8256 8260; do
    { head -c "$at" "$book"; printf '\377'; tail -c +$((at + 2)) "$book"; } >damaged.book
    for command in 'book check' 'writers --level' listing; do
        # shellcheck disable=SC2086
        ends 1 $command damaged.book
        says err 'damaged.book: refused by 1'
    done
    for command in xref 'xref --all' 'xref --cell 020'; do
        # shellcheck disable=SC2086
        ends 1 $command damaged.book
        says err 'damaged.book: refused by 1'
        unbegun
    done
    ends 1 patch damaged.book 027 3C21 never.book
    says err 'damaged.book: refused by 1'
    absent never.book
    ends 1 run damaged.book nine.script --save never.state
    ends 1 level damaged.book end.state
    ends 1 picture damaged.book end.state
    absent never.state
done
head -c 8260 "$book" >damaged.book
ends 1 book check damaged.book
says err 'refused by 10, value 0'
: >damaged.book
ends 1 book check damaged.book
says err 'refused by 10, value 0'
ends 2 book check nowhere.book
ends 2 book check folder

echo "desk: the assembler"
# Each of these lines is refused, with its number and the words behind the bar.
while IFS='|' read -r bad words; do
    printf 'NOP\n%s\n' "$bad" >bad.asm
    ends 2 book make never.book bad.asm small.wiring small.level
    says err "bad.asm:2: $words"
done <<'END'
FOO $1|unknown mnemonic: FOO
DATA|unknown mnemonic: DATA
LDI $020|a comma and a second operand are due here:
LDI $080, 1|the cell is 0 to $7F here, not 128
LDI $020, 16|the number is 0 to $F here, not 16
STA $400|the cell is 0 to $3FF here, not 1024
JMP $1000|the target is 0 to $FFF here, not 4096
BNZ $1000|the target is 0 to $FFF here, not 4096
BNZ $800|the target $800 lies in the other half of the program
CALL $FFF|the target $FFF lies in the other half of the program
DAA $80|the cell is 0 to $7F here, not 128
RTNW 16, 0|the high number is 0 to $F here, not 16
RTNW 0, 16|the number is 0 to $F here, not 16
RTNW 0|a comma and a second operand are due here:
NOP 5|not understood: 5
STA|a number up to $FFFF or a name is due here:
LDA nowhere|unknown name: nowhere
ORG $1000|program addresses are 0 to $FFF
DW $10000|a number up to $FFFF or a name is due here: $10000
x EQU y|unknown name: y
a: a: NOP|unknown mnemonic: a
LDI EQU 5|a mnemonic cannot be a name: LDI
sta: NOP|a mnemonic cannot be a name: sta
STA $020 $021|not understood: $021
JMP 5 -|a number up to $FFFF or a name is due here:
5|not understood: 5
LDA $|a number up to $FFFF or a name is due here: $
STA 0 - 1|the cell is 0 to $3FF here, not -1
END
printf 'ORG 5\nNOP\nORG 5\nNOP\n' >bad.asm
ends 2 book make never.book bad.asm small.wiring small.level
says err 'bad.asm:4: there is a word at $005 already'
printf 'ORG $FFF\nNOP\nNOP\n' >bad.asm
ends 2 book make never.book bad.asm small.wiring small.level
says err 'bad.asm:3: the program ends at $FFF'
absent never.book
printf 'DATA EQU 3\nDATA_: LDI $20, DATA\n' >good.asm
ends 0 book make named.book good.asm small.wiring small.level
ends 0 listing named.book
line_is 1 '000 79A0 LDI 020 3'
printf 'size EQU 2\nhere: ldi $20, size+1 ; a comment\r\n\n  BNZ here\n JMP up\n ORG $800\nup: CALL up+size\n DW $1234-4' >good.asm
ends 0 book make good.book good.asm small.wiring small.level
printf '\171\240\200\000\350\000' >wanted
tail -c +17 good.book | head -c 6 >got
same got wanted
printf '\300\002\022\060\377\377' >wanted
tail -c +$((17 + 4096)) good.book | head -c 6 >got
same got wanted

echo "desk: output that cannot be written"
if [ -w /dev/full ]; then
    "$desk" --help >/dev/full 2>err && wrong "a full disk is not noticed" || ok
    says err 'could not be written'
    for command in listing 'xref --all'; do
        # shellcheck disable=SC2086
        "$desk" $command "$book" >/dev/full 2>err && wrong "a full disk is not noticed" || ok
        says err 'could not be written'
    done
fi
no_parts

echo "$passed passed, $failed failed"
[ "$failed" = 0 ]
