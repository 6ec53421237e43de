#!/bin/sh
# Tests of the debugger: debug.sh PATH-OF-DESK PATH-OF-FORGETFUL-DESK (forgetful.c), from the repository's folder.
desk=$(realpath "$1") || exit 2
forgetful=$(realpath "$2") || exit 2
. tests/desk-lib.sh
root=$(realpath "$examples/..") || exit 2

# types LINES WORDS...: a session of desk debug with the words is told the lines, with \n between them, and ends with
# status 0, as every session without a fault does; its output is kept in out and err for the checks after it.
types() {
    typed=$1
    shift
    printf '%b\n' "$typed" | "$desk" debug "$@" >out 2>err
    got=$?
    said="desk debug $* with '$typed'"
    if [ "$got" = 0 ]; then ok; else wrong "$said: status $got"; cat err; fi
}

# lacks FILE TEXT: the last run's out or err does not hold the text.
lacks() {
    if grep -qF -- "$2" "$1"; then wrong "$said: '$2' in std$1:"; cat "$1"; else ok; fi
}

# line_is FILE NUMBER TEXT: so the line reads, counted from 1, or from the end where the number is negative.
line_is() {
    if [ "$2" -lt 0 ]; then line=$(tail -n $((-$2)) "$1" | head -n 1); else line=$(sed -n "$2p" "$1"); fi
    if [ "$line" = "$3" ]; then ok; else wrong "$said: line $2 of std$1 is '$line', not '$3'"; fi
}

# A session's first two lines tell what it begins with; the answers are behind them.
lines_are() {
    lines=$(($(wc -l <out) - 2))
    if [ "$lines" -eq "$1" ]; then ok; else wrong "$said: $lines lines, not $1:"; cat out; fi
}

# Nothing has changed: the session goes on where it was.
unmoved() {
    line_is out -1 'after 0 events: PC $000, AC 0, CY 0, running; at PC 000 E012 JMP 012'
}

# What books are made of that have little in them.
printf '$300.0 $348.3' >small.wiring
printf 'high $020 low $021 ground 2' >small.level

# assembled NAME TEXT: a book of the program.
assembled() {
    printf '%b' "$2" >"$1.asm"
    "$desk" book make "$1.book" "$1.asm" small.wiring small.level >/dev/null || wrong "the book $1 is not made"
}

"$desk" run "$book" "$script" --save end.state >/dev/null || wrong "the example's end"
"$desk" fresh fresh.state >/dev/null || wrong "a fresh state"

echo "debug: help and wrong use of the command"
ends 0 debug --help
quiet
says out 'usage: desk debug BOOK [--state FILE | --options N] [--script FILE [--raw-script]]'
for word in step next run to until EVENTS mark back marks registers show panel level list writers script save load help quit; do
    says out "  $word "
done
says out '(EVENTS)*N'
ends 0 --help
says out '  desk debug BOOK'
ends 2 debug </dev/null
says err 'usage: desk debug'
ends 2 debug --nonsense </dev/null
says err 'unknown option --nonsense'
ends 2 debug "$book" "$script" </dev/null
says err 'one word too many'
ends 2 debug "$book" --raw-script </dev/null
says err '--raw-script is for the file of --script'
unbegun
ends 2 debug "$book" --state fresh.state --options 1 </dev/null
says err 'options are for a fresh machine'
ends 2 debug "$book" --columns 0 </dev/null
says err 'at least one column'
ends 2 debug "$book" --digits 3 </dev/null
says err '3 digits need 21 elements'
unbegun
ends 2 debug nowhere.book </dev/null
says err 'cannot read nowhere.book'
ends 2 debug "$book" --script nowhere.script </dev/null
says err 'cannot read nowhere.script'
ends 2 debug "$book" --state nowhere.state </dev/null
says err 'cannot read nowhere.state'
: >empty.book
ends 1 debug empty.book </dev/null
says err 'empty.book: refused by 10, value 0'
unbegun
head -c 1000 end.state >short.state
ends 2 debug "$book" --state short.state </dev/null
says err 'short.state is no state: it has 1000 bytes'
ends 1 debug "$book" --options 8 </dev/null
says err 'refused by 12, value 8'
{ printf '\020'; tail -c +2 end.state; } >cell.state
ends 1 debug "$book" --state cell.state </dev/null
says err 'cell.state: refused by 3, value 0: memory cell $000'
unbegun
{ head -c 1024 end.state; printf '\020'; tail -c 44 end.state; } >record.state
ends 1 debug "$book" --state record.state </dev/null
says err 'record.state: refused by 4, value 0'
unbegun
printf 'cycle*7 $50 cycle' >unknown.script
ends 1 debug "$book" --script unknown.script </dev/null
says err 'unknown.script: refused by 5, value 7'
unbegun
printf 'cycle cycles' >bad.script
ends 2 debug "$book" --script bad.script </dev/null
says err 'bad.script:1: cycles is no event'
unbegun

echo "debug: the end of input, comments, and lines that are no text"
ends 0 debug "$book" </dev/null
quiet
line_is out 1 "$book, a chip just switched on, no script"
unmoved
lacks out 'desk> '
ends 0 debug "$book" --script "$script" --state end.state </dev/null
line_is out 1 "$book, the chip as in end.state, the script $script of 29608 events"
line_is out 2 'after 0 events: PC $011, AC 8, CY 1, asleep in HALT; at PC 011 E010 JMP 010'
printf 'run 3' >last
ends 0 debug "$book" <last
quiet
line_is out -1 'after 3 events: PC $014, AC 4, CY 0, running; at PC 014 7A93 LDI 013 5'
types 'nonsense' "$book"
says err 'nonsense is no word of the debugger and no event; help lists the words'
unmoved
types '\n  \n\t\n# step\n  # step\n#\n\n' "$book"
quiet
unmoved
types 'run 3 # three\nrun 3#four' "$book"
quiet
line_is out -1 'after 6 events: PC $017, AC 2, CY 0, running; at PC 017 C030 CALL 030'
# Where input is no terminal, an empty line does nothing again.
types 'run 3\n\n' "$book"
line_is out -1 'after 3 events: PC $014, AC 4, CY 0, running; at PC 014 7A93 LDI 013 5'
printf 'run 2\r\n\r\nlevel\r\n' >crlf
ends 0 debug "$book" <crlf
quiet
line_is out -1 'level -2  (digits 0,0; ground code 2)'
printf 'run 1\000\nrun\r 1\nru\033[An 1\n\177\nlevel\n' >control
ends 0 debug "$book" <control
says err 'the line is no text: it has a control character, $00'
says err 'the line is no text: it has a control character, $0D'
says err 'the line is no text: it has a control character, $1B'
says err 'the line is no text: it has a control character, $7F'
line_is out 2 'after 0 events: PC $000, AC 0, CY 0, running; at PC 000 E012 JMP 012'
line_is out 3 'level -2  (digits 0,0; ground code 2)'
lines_are 1
# The longest line, and one byte more; what stands behind it is read all the same.
{ printf 'run 2 #'; head -c 4089 /dev/zero | tr '\0' x; printf '\n'; } >longest
ends 0 debug "$book" <longest
quiet
line_is out -1 'after 2 events: PC $013, AC 3, CY 0, running; at PC 013 7A07 LDI 007 4'
{ printf 'run 2 #'; head -c 4090 /dev/zero | tr '\0' x; printf '\nlevel\n'; } >longer
ends 0 debug "$book" <longer
says err 'the line is too long: it has more than 4096 bytes'
line_is out -1 'level -2  (digits 0,0; ground code 2)'
lines_are 1
{ head -c 100000 /dev/zero | tr '\0' x; printf '\nlevel'; } >longer
ends 0 debug "$book" <longer
says err 'the line is too long'
line_is out -1 'level -2  (digits 0,0; ground code 2)'
mkdir folder
ends 2 debug "$book" <folder
says err 'cannot read standard input'
# What is said on either stream comes in the order in which it was asked for.
printf 'level\nnonsense\nrun 1\nwriters 200\nlevel\n' | "$desk" debug "$book" >both 2>&1
cat >wanted <<END
$book, a chip just switched on, no script
after 0 events: PC \$000, AC 0, CY 0, running; at PC 000 E012 JMP 012
level -2  (digits 0,0; ground code 2)
desk: nonsense is no word of the debugger and no event; help lists the words
1 event done
after 1 event: PC \$012, AC 0, CY 0, running; at PC 012 7995 LDI 015 3
desk: the list of writers: refused by 8, value 512: \$200 is no data cell (\$020-\$16F), display cell (\$300-\$348) or scan cell (\$358-\$36D)
level -2  (digits 0,0; ground code 2)
END
said='both streams'
same both wanted
printf 'level\n# said\r\n\033\177\nlast' | "$desk" debug "$book" --echo >both 2>&1
cat >wanted <<END
$book, a chip just switched on, no script
after 0 events: PC \$000, AC 0, CY 0, running; at PC 000 E012 JMP 012
desk> level
level -2  (digits 0,0; ground code 2)
desk> # said
desk> ??
desk: the line is no text: it has a control character, \$1B
desk> last
desk: last is no word of the debugger and no event; help lists the words
desk> 
END
said='an echo'
same both wanted

echo "debug: help and quit"
types 'help' "$book"
quiet
for word in step next run to until EVENTS mark back marks registers show panel level list writers script save load help quit; do
    says out "  $word "
done
lines_are 21
cp out listed
types 'h' "$book"
same out listed
while read -r word brief; do
    types "help $word" "$book"
    quiet
    line_is out 3 "$(sed -n "s/^$word: //p" <<END
step: step [N]; short: s
run: run [N]; short: r
to: to ADDRESS [N]; short: t
until: until CELL [N] | until level [N]; short: u
mark: mark [NAME]; short: m
back: back [NAME]; short: b
marks: marks; short: ms
registers: registers; short: reg
show: show [NAME|CELL|CELL-CELL|all]; short: sh
panel: panel; short: p
level: level; short: lv
list: list [ADDRESS] [N]; short: l
writers: writers CELL | writers level; short: w
script: script; short: sc
save: save FILE [--force]
load: load FILE
help: help [WORD]; short: h
quit: quit; short: q
END
)"
    cp out full
    if [ "$brief" != - ]; then
        types "h $brief" "$book"
        same out full
    fi
done <<'END'
step s
run r
to t
until u
mark m
back b
marks ms
registers reg
show sh
panel p
level lv
list l
writers w
script sc
save -
load -
help h
quit q
END
types 'help EVENTS' "$book"
says out '(EVENTS)*N'
types 'help nonsense\nhelp step run\nhelp a b c d e f' "$book"
says err 'nonsense is no word of the debugger; help lists them'
says err 'too much behind help; usage: help [WORD]'
unmoved
types 'quit\nlevel' "$book"
lines_are 0
types 'q\nlevel' "$book"
lines_are 0
types 'quit now\nlevel' "$book"
says err 'too much behind quit; usage: quit'
says out 'level -2'

echo "debug: step and run"
types 'step' "$book"
quiet
line_is out 3 '   event  what       at  word instruction  PC  AC CY  mode     changes, before -> after'
line_is out 4 '       0  cycle      000 E012 JMP 012      012  0  0  running'
lines_are 2
types 's 3\nstep' "$book" --script "$script"
line_is out 4 '       0  cycle      000 E012 JMP 012      012  0  0  running'
line_is out 7 '       3  sound     (012 7995 LDI 015 3)   012  0  0  running'
lines_are 5
types 'step 6\nlevel\ns' "$book" --script "$script"
line_is out 8 '       4  sound     (012 7995 LDI 015 3)   012  0  0  running'
line_is out 9 '       5  cycle      012 7995 LDI 015 3    013  3  0  running  $015 0 -> 3'
line_is out 11 '   event  what       at  word instruction  PC  AC CY  mode     changes, before -> after'
line_is out 12 '       6  sound     (013 7A07 LDI 007 4)   013  3  0  running'
types 'step 0' "$book"
quiet
lines_are 0
for bad in x -1 1.5 '$' 1073741825 99999999999999999999 4G; do
    types "step $bad\nrun $bad" "$book"
    says err "$bad is no number up to 1073741824; usage: step [N]"
    says err "$bad is no number up to 1073741824; usage: run [N]"
    unmoved
done
types 'step 1 2\nrun 1 2' "$book"
says err 'too much behind step; usage: step [N]'
says err 'too much behind run; usage: run [N]'
unmoved
types 'step $A\nrun 0x10' "$book"
line_is out -2 '16 events done'
line_is out -1 'after 26 events: PC $046, AC 2, CY 0, running; at PC 046 3C22 STA 022'
# Steps, and a run in pieces, come to what desk run comes to.
types 'run\nsave ran.state' "$book" --script "$script"
quiet
line_is out 3 "29608 events done; the script is at its end"
line_is out 4 'after 29608 events: PC $011, AC 8, CY 1, asleep in HALT; at PC 011 E010 JMP 010'
same ran.state end.state
types 'r 1\nr 999\ns 2000\nrun 0\nrun\nsave pieces.state' "$book" --script "$script"
quiet
same pieces.state end.state
types 'run\nrun\nrun' "$book" --script "$script"
says err 'the script is at its end; run N lets N cycles happen'
line_is out -1 'after 29608 events: PC $011, AC 8, CY 1, asleep in HALT; at PC 011 E010 JMP 010'
types 'run' "$book"
says err 'there is no script; run N lets N cycles happen'
unmoved
# Behind the script's end there are cycles.
{ cat "$script"; echo 'cycle*500'; } >behind.script
"$desk" run "$book" behind.script --save behind.state >/dev/null
types 'run 30108\nsave run-on.state' "$book" --script "$script"
line_is out 3 '30108 events done; the script is at its end'
same run-on.state behind.state
types 'run 29600\nstep 508\nsave step-on.state' "$book" --script "$script"
same step-on.state behind.state
printf 'cycle*5000000' >long.script
"$desk" run "$book" long.script --save long.state >/dev/null
types 'run 5000000\nsave long-run.state' "$book"
same long-run.state long.state
types 'run\nsave long-script.state' "$book" --script long.script
same long-script.state long.state
printf '\000\005\005\021' >raw.script
types 'step 9' "$book" --script raw.script --raw-script
line_is out 7 '       3  a=1       (012 7995 LDI 015 3)   012  0  0  running  pins A 0 -> 1'
line_is out 8 '       4  cycle      012 7995 LDI 015 3    013  3  0  running  $015 0 -> 3'
types 'step' "$book" --state end.state
line_is out 4 '       0  cycle     (011 E010 JMP 010)     011  8  1  HALT     asleep'

echo "debug: next"
types 'next 3\nn\nhelp next' "$book" --script "$script"
quiet
line_is out 4 '       0  cycle      000 E012 JMP 012      012  0  0  running'
line_is out 5 '       5  cycle      012 7995 LDI 015 3    013  3  0  running  $015 0 -> 3'
line_is out 7 '      15  cycle      014 7A93 LDI 013 5    015  5  0  running  $013 4 -> 5'
line_is out 8 'next [N]; short: n'
types 'next 4\nsave next.state' "$book" --script "$script"
types 'run 16\nsave run.state' "$book" --script "$script"
same next.state run.state
types 'next x\nnext 1 1' "$book"
says err 'x is no number up to'
says err 'too much behind next'
unmoved

echo "debug: to"
for address in 010 027 02B '$02D' 0x045 1FF; do
    "$desk" run "$book" "$script" --stop "$address" --save stop.state --force >stopped
    types "to $address\nsave to.state --force" "$book" --script "$script"
    quiet
    same to.state stop.state
    says out "$(sed -n '1s/ of 29608 events done/ events done/p' stopped)"
done
types 't 010\nto 010\nto 010\nto 010\nt 010' "$book" --script "$script"
line_is out 3 '281 events done; stopped at $010'
line_is out 6 'after 17329 events: PC $010, AC 8, CY 1, running; at PC 010 D800 HALT'
says out 'no cycle left PC at $010'
line_is out -1 'after 1029608 events: PC $011, AC 8, CY 1, asleep in HALT; at PC 011 E010 JMP 010'
says out 'the script is at its end, so at most 1000000 cycles'
types 'to 010' "$book"
line_is out 3 'there is no script, so at most 1000000 cycles'
line_is out 4 '57 events done; stopped at $010'
types 'to 010 56\nto 010 1' "$book"
line_is out 3 '56 events done; no cycle left PC at $010'
line_is out 5 '1 event done; stopped at $010'
types 'to 011 300' "$book" --script "$script"
line_is out 3 '286 events done; stopped at $011'
for bad in 1000 xyz -1 '' '$'; do
    types "to $bad" "$book"
    says err 'usage: to ADDRESS [N]'
    unmoved
done
types 'to 1000\nto\nto 010 x\nto 010 1 2' "$book"
says err 'an address is 000 to FFF in hex, not 1000; usage: to ADDRESS [N]'
says err 'something is missing behind to; usage: to ADDRESS [N]'
says err 'x is no number up to 1073741824; usage: to ADDRESS [N]'
says err 'too much behind to; usage: to ADDRESS [N]'
unmoved

echo "debug: until"
# The same changes as a watched run tells, one for each until.
for watched in '--watch-level level' '--watch 020 020' '--watch 021 $021' '--watch 022 0x022' '--watch 025 025' \
    '--watch 300 300' '--watch 304 304' '--watch 027 027'; do
    # shellcheck disable=SC2086
    "$desk" run "$book" "$script" ${watched% *} >watch
    grep '^  event' watch >wanted
    { yes "until ${watched##* }" | head -n "$(wc -l <wanted)"; echo "u ${watched##* }"; } >lines
    ends 0 debug "$book" --script "$script" <lines
    quiet
    grep '^  event' out >got
    same got wanted
    size_is wanted "$(wc -c <got)"
    says out ' done without a change'
    line_is out -1 'after 29608 events: PC $011, AC 8, CY 1, asleep in HALT; at PC 011 E010 JMP 010'
done
types 'until level\nsave until.state' "$book" --script "$script"
line_is out 3 '  event 25: $021 0 -> 2  by  016 7921 LDI 021 2'
line_is out 4 'after 26 events: PC $017, AC 2, CY 0, running; at PC 017 C030 CALL 030'
types 'run 26\nsave twentysix.state' "$book" --script "$script"
same until.state twentysix.state
types 'until level 25\nuntil level 1' "$book" --script "$script"
line_is out 3 '25 events done without a change'
line_is out 5 '  event 25: $021 0 -> 2  by  016 7921 LDI 021 2'
types 'until level' "$book"
line_is out 3 'there is no script, so at most 1000000 cycles'
line_is out 4 '  event 5: $021 0 -> 2  by  016 7921 LDI 021 2'
# Registers: by an instruction, a pin, an interrupt, a reset, or the cycle itself.
types 'u TBR\nu IEX\nback start\nu IRQX\nu IRQX\nback start\nu 001\nback start\nu 371\nback start\nu LCDON' "$book" --script "$script"
quiet
line_is out 3 '  event 85: $00E 0 -> 3  by  100 D03F RTNW 3 F'
line_is out 5 '  event 275: $000 0 -> 8  by  01D 7C00 LDI 000 8'
line_is out 9 '  event 502: $001 0 -> 8  by  the event a=1'
line_is out 11 '  event 513: $001 8 -> 0  by  01F 7381 ANDIM 001 7'
line_is out 15 '  event 502: $001 0 -> 8  by  the event a=1'
line_is out 19 '  event 260: $371 0 -> E  by  01A 3F71 STA 371'
line_is out 23 '  event 10: $007 0 -> 4  by  013 7A07 LDI 007 4'
types 'run 503\nu IEX' "$book" --script "$script"
line_is out 5 '  event 503: $000 8 -> 0  by  an interrupt, taken to $001'
printf 'cycle*9 $03 cycle' >reset.script
types 'run 9\nu LCDON' "$book" --script reset.script
line_is out 5 '  event 9: $007 4 -> 0  by  the event reset'
assembled timer ' LDI $002, 6\n LDI $004, 14\n LDI $005, 15\n NOP\n NOP\n NOP\n NOP\n'
types 'u IRQT0 100' timer.book
line_is out 3 '  event 5: $001 0 -> 4  by  the cycle itself, not by  005 FFFF NOP'
assembled both ' LDI $002, 6\n LDI $004, 15\n LDI $005, 15\n EORIM $001, 1\n'
types 'u 001 100' both.book
line_is out 3 '  event 3: $001 0 -> 5  by  003 6081 EORIM 001 1  and by the cycle itself'
types 'u IRQT0 100' both.book
line_is out 3 '  event 3: $001 0 -> 5  by  the cycle itself, not by  003 6081 EORIM 001 1'
types 'u IRQP 100' both.book
line_is out 3 '  event 3: $001 0 -> 5  by  003 6081 EORIM 001 1'
# An interrupt clears the enable flags; what else changes in its cycle, the cycle does.
assembled taken ' LDI $002, 6\n LDI $013, 1\n LDI $004, 14\n LDI $005, 15\n LDI $000, 8\n'
printf 'cycle*5 a=1 cycle' >taken.script
types 'run 6\nu 001' taken.book --script taken.script
line_is out 5 '  event 6: $001 8 -> C  by  the cycle itself, in which an interrupt was taken to $001'
types 'run 6\nu IEX' taken.book --script taken.script
line_is out 5 '  event 6: $000 8 -> 0  by  an interrupt, taken to $001'
assembled asleep ' LDI $002, 6\n LDI $004, 10\n LDI $005, 15\nagain: HALT\n JMP again\n'
types 'u IRQT0 100' asleep.book
line_is out 3 '  event 13: $001 0 -> 4  by  the cycle itself, asleep'
assembled base ' LDI $003, 8\nagain: JMP again\n'
printf 'cycle base*256 cycle' >base.script
types 'u IRQBT' base.book --script base.script
line_is out 3 '  event 256: $001 0 -> 2  by  the event base'
printf 'watchdog*5000' >watchdog.script
types 'u WDF' "$book" --script watchdog.script --options 1
line_is out 3 '  event 4095: $01E 0 -> 8  by  the event watchdog'
assembled data ' LDI $01B, 1\n LDI $01A, 0\n ADI $020, 1\n ORG $010\n DW $A5C3\n'
types 'run 2\nu RDT.12 1\nu RDT.13 1' data.book
line_is out 5 '1 event done without a change'
types 'run 2\nu RDT.13 1' data.book
line_is out 5 '  event 2: $01D 0 -> A  by  a read of program data, not by  002 40A0 ADI 020 1'
# Also where what is read is the word that is executed.
assembled own ' ORG 3\n LDI $01A, 4\n LDI $030, 5\n'
types 'u 01B 9' own.book
line_is out 3 '  event 4: $01B 0 -> B  by  a read of program data, not by  004 7AB0 LDI 030 5'
# What nothing can change is told at once, and nothing is run.
assembled few ' LDI $020, 1\n LDI $022, 1\nagain: JMP again\n'
types 'u 021\nuntil 023\nu $348\nu TL0\nu TH0.1\nu 006\nu 200\nu 3FF' few.book
quiet
line_is out 3 'cell $021 (low digit of the level): no instruction can change it'
line_is out 4 'cell $023: no instruction can change it'
line_is out 5 'cell $348: no instruction can change it'
line_is out 6 "cell \$004 keeps nothing in memory, so it never changes; registers tells Timer0's counter"
line_is out 7 "cell \$005 keeps nothing in memory, so it never changes; registers tells Timer0's counter"
line_is out 8 'cell $006 keeps nothing in memory, so it never changes'
line_is out 9 'cell $200 keeps nothing in memory, so it never changes'
line_is out 10 'cell $3FF keeps nothing in memory, so it never changes'
lines_are 8
types 'u level 5' few.book
line_is out 3 'cell $021 (low digit of the level): no instruction can change it'
line_is out 4 '  event 0: $020 0 -> 1  by  000 78A0 LDI 020 1'
# A bit that this state cannot have otherwise is kept all the same.
types 'until BD0 5\nuntil 00C 5\nuntil TM0.3 5' few.book
line_is out 3 '5 events done without a change'
line_is out 5 '5 events done without a change'
line_is out 7 '5 events done without a change'
assembled none 'again: JMP again\n'
types 'u level' none.book
line_is out 3 'cell $020 (high digit of the level): no instruction can change it'
line_is out 4 'cell $021 (low digit of the level): no instruction can change it'
lines_are 2
types 'until\nuntil 400\nuntil XYZ\nuntil 020 x\nuntil 020 1 2\nuntil levels\nuntil 020-021\nu 004 x' "$book"
says err 'something is missing behind until; usage: until CELL [N] | until level [N]'
for bad in 400 XYZ levels 020-021; do
    says err "a cell is 000 to 3FF in hex or a name of the data sheet, not $bad; usage: until CELL [N] | until level [N]"
done
says err 'x is no number up to 1073741824; usage: until CELL [N]'
says err 'too much behind until'
unmoved
# A change that the list of writers does not have is a fault; the session goes on, and ends with the status of one.
printf 'until 021\nlevel\nuntil 021\n' | "$forgetful" debug "$book" --script "$script" >out 2>err
got=$?
said='a session with a fault'
if [ "$got" = 3 ]; then ok; else wrong "$said: status $got, not 3"; fi
says out '  event 25: $021 0 -> 2  by  016 7921 LDI 021 2'
says err 'FAULT: event 25 changed cell $021 at $016, which its list of writers does not have'
says err 'FAULT: this must never be; please keep book, state and script, and report it'
says out 'level 0  (digits 0,2; ground code 2)'
says out '  event 573: $021 2 -> 1  by  02B 3C21 STA 021'

# Of a port the latch and the pins are waited for, and it is shown as a program reads it.
types 'until PORTC\nuntil PA.0' "$book" --script "$script"
quiet
says out '  event 501: pins C 0 -> 1  by  the event c=1'
says out '  event 502: pins A 0 -> 1  by  the event a=1'
types 'until PA.1 600' "$book" --script "$script"
says out '600 events done without a change'
assembled ports ' LDI $016, 1\n LDI $008, 1\n LDI $008, 3\n'
types 'a=2\nshow PORTA\nrun 1\nshow PA.0\nuntil PA.0 9\nshow PORTA\nuntil PORTA 9\nshow PORTA' ports.book
quiet
says out '$008 PORTA 2  PA.3 0  PA.2 0  PA.1 1  PA.0 0             port A; latch 0, pins 2'
says out 'PA.0 is 0: bit 0 of $008, which is 2; latch 0, pins 2'
says out '  event 2: $008 0 -> 1  by  001 7888 LDI 008 1'
says out '$008 PORTA 3  PA.3 0  PA.2 0  PA.1 1  PA.0 1             port A; latch 1, pins 2'
says out '  event 3: $008 1 -> 3  by  002 7988 LDI 008 3'
says out '$008 PORTA 3  PA.3 0  PA.2 0  PA.1 1  PA.0 1             port A; latch 3, pins 2'
# What is no cell.
for name in PC AC cy; do
    types "show $name\nuntil $name" "$book"
    says err "$name is no cell, and registers tells it"
    unmoved
done
printf 'reset reset' >resets.script
types 'until 022\nb=2' "$book" --script resets.script
says out '2 events done without a change; the script is at its end'
line_is out -2 '1 event done'

echo "debug: events that are typed"
# events_are TEXT: typed, they are what desk run makes of the same text.
events_are() {
    printf '%s' "$1" >typed.script
    "$desk" run "$book" typed.script --save script.state --force >ran
    types "$1\nsave typed.state --force" "$book"
    quiet
    same typed.state script.state
    done=$(sed -n '1s/ of .*//p' ran)
    if [ "$done" = 1 ]; then says out '1 event done'; else says out "$done events done"; fi
}
for events in cycle base watchdog reset sound a=1 b=F c=0 d=a '$2A' '$00' 'cycle*100' '(cycle sound*4)*20' 'cycle*0' \
    'a=1 cycle*100' '( cycle )' '((cycle base)*3 sound)*2' '  cycle   reset  ' 'cycle*57 b=5 c=5 a=1 cycle*100' \
    'cycle*300000 b=1 a=1 cycle*50'; do
    events_are "$events"
done
types 'a=1 cycle*3 # and a comment\nlevel' "$book"
quiet
line_is out 3 '4 events done'
# They are not the script's, which goes on behind them.
{ echo 'cycle*100 a=5'; cat "$script"; } >before.script
"$desk" run "$book" before.script --save before.state >/dev/null
types 'cycle*100 a=5\nscript\nrun\nsave mixed.state' "$book" --script "$script"
line_is out 5 '0 of 29608 events of the script are done; next: (cycle sound*4)*100 b=0 c=1 a=1 (cycle sound*4)*3500 a=0 ...'
line_is out -2 'after 29709 events: PC $011, AC 8, CY 1, asleep in HALT; at PC 011 E010 JMP 010'
same mixed.state before.state
types 'cycle $04\n$04\n$50 cycle\ncycle*70000 $FF' "$book"
says err 'the line: refused by 5, value 1: place 1 of the script, counted from 0, has an unknown event'
says err 'the line: refused by 5, value 0'
says err 'the line: refused by 5, value 70000'
unmoved
while IFS='|' read -r bad words; do
    types "$bad" "$book"
    line_is err 1 "desk: $words"
    unmoved
done <<'END'
cycles|cycles is no word of the debugger and no event; help lists the words
Cycle|Cycle is no word of the debugger and no event; help lists the words
cycle cycles|cycles is no event (desk run --help lists them)
e=1|e=1 is no event (desk run --help lists them)
a=10|a=10 is no event (desk run --help lists them)
$123|$123 is no event (desk run --help lists them)
cycle*|cycle*: how many times? A decimal number up to 1073741824 stands after *
cycle*x|cycle*x: how many times? A decimal number up to 1073741824 stands after *
)|) closes a group that no ( opens
(|the group that begins here has no ) at its end
cycle (cycle|the group that begins here has no ) at its end
((((((((((((((((( cycle|more than 16 groups stand in each other
cycle*16777217|the line has more than 16777216 events
(cycle*5000)*5000|the line has more than 16777216 events
cycle step|step is no event (desk run --help lists them)
END

echo "debug: words that are no instruction"
assembled stop ' LDI $020, 9\n LDI $021, 1\n DW $F800\n'
printf 'cycle*9' >nine.script
"$desk" run stop.book nine.script --save unlisted.state >/dev/null 2>&1
types 'run 9\nsave six.state' stop.book
says err 'the run: refused by 6, value 2: the cycle would execute the word at $002, which is no instruction'
line_is out 3 '2 events done of 9; stopped before a word that is no instruction'
line_is out 4 'after 2 events: PC $002, AC 1, CY 0, running; at PC 002 F800 DATA'
same six.state unlisted.state
types 'step 5\nsave six-step.state' stop.book
says err 'the step: refused by 6, value 2'
line_is out 5 '       1  cycle      001 78A1 LDI 021 1    002  1  0  running  $021 0 -> 1'
lines_are 4
same six-step.state unlisted.state
types 'to 005\nto 001' stop.book
says err 'the run: refused by 6, value 2'
line_is out 4 '2 events done of 1000000; stopped before a word that is no instruction'
types 'until 022\nuntil 020\nuntil 020\nuntil TBR' stop.book
says out 'cell $022: no instruction can change it'
says out '  event 0: $020 0 -> 9  by  000 7CA0 LDI 020 9'
says err 'the step: refused by 6, value 2'
line_is out -2 '0 events done without a change'
line_is out -1 'after 2 events: PC $002, AC 1, CY 0, running; at PC 002 F800 DATA'
types 'cycle*2 sound cycle sound\nreset\nrun 1' stop.book
says err 'refused by 6, value 2'
line_is out 3 '3 events done of 5; stopped before a word that is no instruction'
line_is out -1 'after 5 events: PC $001, AC 9, CY 0, running; at PC 001 78A1 LDI 021 1'
types 'run\nrun\nscript\nreset\nrun' stop.book --script nine.script
says out '2 of 9 events of the script are done; next: cycle*7'
line_is out -2 '2 events done of 7; stopped before a word that is no instruction'
types 'run 2\nlevel' stop.book 
says out '2 events done'
types 'run 1\nlevel' stop.book
says err 'the level: refused by 9, value 0'

echo "debug: marks"
# A mark is the state, the count of events and the place in the script: what comes after going back is what came before.
types 'run 700\nmark\nsave marked.state\nrun 800\na=F cycle*77\nback\nsave back.state\nrun\nsave on.state' "$book" --script "$script"
quiet
line_is out 5 'mark 1 kept'
says out 'back at mark 1'
same back.state marked.state
same on.state end.state
line_is out -2 'after 29608 events: PC $011, AC 8, CY 1, asleep in HALT; at PC 011 E010 JMP 010'
types 'run 700\nback\nsave start.state\nrun\nsave again.state' "$book" --script "$script"
quiet
line_is out 5 'back at the start'
line_is out 6 'after 0 events: PC $000, AC 0, CY 0, running; at PC 000 E012 JMP 012'
same start.state fresh.state
same again.state end.state
types 'back\nrun 5\nb' "$book" --state end.state
line_is out -1 'after 0 events: PC $011, AC 8, CY 1, asleep in HALT; at PC 011 E010 JMP 010'
types 'run 1\nm\nrun 1\nm two\nrun 1\nmark\nback two\nback\nback 1\nb start\nmarks' "$book" --script "$script"
quiet
line_is out 5 'mark 1 kept'
line_is out 8 'mark two kept'
line_is out 11 'mark 2 kept'
line_is out 12 'back at mark two'
line_is out 13 'after 2 events: PC $012, AC 0, CY 0, running; at PC 012 7995 LDI 015 3'
line_is out 14 'back at mark 2'
line_is out 16 'back at mark 1'
line_is out 18 'back at the start'
line_is out 20 '  start, after 0 events, 0 of the script'"'"'s 29608: PC $000, AC 0, CY 0, running'
line_is out 21 '  1, after 1 event, 1 of the script'"'"'s 29608: PC $012, AC 0, CY 0, running'
line_is out 22 '  two, after 2 events, 2 of the script'"'"'s 29608: PC $012, AC 0, CY 0, running'
line_is out 23 '  2, after 3 events, 3 of the script'"'"'s 29608: PC $012, AC 0, CY 0, running'
cp out listed
types 'run 1\nm\nrun 1\nm two\nrun 1\nmark\nback two\nback\nback 1\nb start\nms' "$book" --script "$script"
same out listed
# A mark that is made again moves, and is then the newest.
types 'mark a\nmark b\nmark c\nrun 4\nmark a\nmarks\nback b\nback' "$book"
line_is out 8 'mark a moved here'
line_is out 10 '  b, after 0 events: PC $000, AC 0, CY 0, running'
line_is out 11 '  c, after 0 events: PC $000, AC 0, CY 0, running'
line_is out 12 '  a, after 4 events: PC $015, AC 5, CY 0, running'
line_is out -2 'back at mark a'
line_is out -1 'after 4 events: PC $015, AC 5, CY 0, running; at PC 015 7820 LDI 020 0'
types 'marks' "$book"
line_is out 3 '  start, after 0 events: PC $000, AC 0, CY 0, running'
lines_are 1
{ yes mark | head -n 64; echo 'run 5'; echo 'mark'; echo 'mark more'; echo 'mark 64'; echo 'mark 1'; echo 'marks'; } >lines
ends 0 debug "$book" <lines
if [ "$(grep -c 'there are 64 marks already, and no more are kept' err)" = 2 ]; then ok; else wrong "65 marks"; fi
says out 'mark 64 kept'
says out 'mark 64 moved here'
line_is out -3 '  63, after 0 events: PC $000, AC 0, CY 0, running'
line_is out -2 '  64, after 5 events: PC $016, AC 0, CY 0, running'
line_is out -1 '  1, after 5 events: PC $016, AC 0, CY 0, running'
types 'mark a b\nmark a/b\nmark start\nmark abcdefghijklmnopqrstuvwxyz012345\nback no\nback a b\nmarks a\nmark é' "$book"
says err 'too much behind mark; usage: mark [NAME]'
says err "a mark's name has at most 31 letters, digits, . - or _, unlike a/b; usage: mark [NAME]"
says err 'the place where the session began is already called start; usage: mark [NAME]'
says err 'or _, unlike abcdefghijklmnopqrstuvwxyz012345'
says err 'there is no mark no; marks lists them'
says err 'too much behind back; usage: back [NAME]'
says err 'too much behind marks; usage: marks'
says err 'or _, unlike é'
unmoved
types 'mark abcdefghijklmnopqrstuvwxyz01234\nmark A.b-c_9' "$book"
quiet
line_is out 3 'mark abcdefghijklmnopqrstuvwxyz01234 kept'

echo "debug: registers"
# record BYTES: a state with this record, over a memory that fits it: the watchdog on, bonding bit BD1.
"$desk" fresh options.state --options 5 >/dev/null
head -c 1024 options.state >full.state
printf '\001\043\005\001\000\032\274\001\002\000\000\000\000\000\000\000\000\000\000\017\377' >>full.state
printf '\001\002\132\245\000\000\000\007\001\002\003\004\005\001\004\126\003\367\001\000\001\000\011\001' >>full.state
types 'registers' "$book" --state full.state
quiet
tail -n +3 out >got
cat >wanted <<'END'
PC $123, AC 5, CY 1, running
sound channel 1: output 1, count 1015; channel 2: output 0, count 1
Timer0's low nibble is frozen as 9 until $004 is read
stack, newest first, PC/CY: $ABC/1 $102/0 $000/0 $000/0 $000/0 $000/0 $000/0 $FFF/0
Timer0: prescaler 258, counter $5A, load $A5
base timer: prescaler 0, counter $00
watchdog: on, its count 7 ms
options 5: watchdog on, BD0 0, BD1 1
pins: A 1, B 2, C 3, D 4
a read of program data is under way, at $456
END
same got wanted
types 'reg' "$book"
quiet
says out 'Timer0: prescaler 0, counter $00, load $00, no nibble frozen'
says out 'watchdog: off, its count 4096 ms'
says out 'no read of program data is under way'
cp out listed
types 'registers' "$book"
same out listed
types 'reg' "$book" --state end.state
says out 'PC $011, AC 8, CY 1, asleep in HALT'
assembled stopped ' STOP\n'
types 'run 1\nreg' stopped.book
says out 'PC $001, AC 0, CY 0, asleep in STOP'
printf 'cycle base*5' >base.script
types 'run 6\nreg' base.book --script base.script
says out 'base timer: prescaler 0, counter $05'
types 'registers all' "$book"
says err 'too much behind registers; usage: registers'
unmoved

echo "debug: show"
types 'show' "$book" --state end.state
quiet
lines_are 40
line_is out 3 '$000       8  IEX 1  IET0 0  IEBT 0  IEP 0               interrupt enable flags'
says out '$007       4  LCDON 1  RLCD1 0  RLCD0 0                  LCD divider resistors, LCD on/off'
says out '$009 PORTB 1  PB.3 0  PB.2 0  PB.1 0  PB.0 1             port B; latch 0, pins 1'
says out '$00F INX   -  keeps nothing in memory                    pseudo index register'
says out '$012 DPH   6  DPH.2 1  DPH.1 1  DPH.0 0                  data pointer for INX, high nibble'
says out '$372       6  OCT1 0  C1.6 1  C1.5 1  C1.4 0             sound channel 1, high nibble, octave'
cp out listed
types 'sh' "$book" --state end.state
same out listed
types 'show TL0\nshow TH0.3' "$book" --state full.state
line_is out 3 '$004 TL0   -  keeps nothing in memory                    Timer0 load/counter register, low nibble; the counter is $5A'
line_is out 4 '$005 TH0   -  keeps nothing in memory                    Timer0 load/counter register, high nibble; the counter is $5A'
types 'show BD1\nshow PORTA\nshow PORTD' "$book" --state full.state
line_is out 3 'BD1 is 1: bit 1 of $00C, which is 2'
says out 'port A; latch 0, pins 1'
says out 'port D; latch 0, pins 4'
# Every register and bit of the data sheet (003, section 3.2) is found by its name, capitals or not: its cell, its bits
# from bit 3 down, its name.
while read -r cell three two one zero name; do
    if [ "$name" != - ]; then
        types "show $name" "$book" --state end.state
        line_is out 3 "$(grep "^\$$cell " listed)"
        says out "\$$cell $name"
    fi
    bit=3
    for of in "$three" "$two" "$one" "$zero"; do
        if [ "$of" != - ]; then
            types "show $(echo "$of" | tr '[:upper:]' '[:lower:]')" "$book" --state end.state
            quiet
            case $cell in
            004 | 005 | 00F) says out "\$$cell $name" ;;
            *) says out ": bit $bit of \$$cell, which is $(grep "^\$$cell " listed | cut -c 12)"
               says out "$of is $(grep "^\$$cell " listed | sed "s|.* $of \\([01]\\).*|\\1|")" ;;
            esac
        fi
        bit=$((bit - 1))
    done
done <<'END'
000 IEX IET0 IEBT IEP -
001 IRQX IRQT0 IRQBT IRQP -
002 TM0.3 TM0.2 TM0.1 TM0.0 TM0
003 BTM.3 BTM.2 BTM.1 BTM.0 BTM
004 TL0.3 TL0.2 TL0.1 TL0.0 TL0
005 TH0.3 TH0.2 TH0.1 TH0.0 TH0
007 - LCDON RLCD1 RLCD0 -
008 PA.3 PA.2 PA.1 PA.0 PORTA
009 PB.3 PB.2 PB.1 PB.0 PORTB
00A PC.3 PC.2 PC.1 PC.0 PORTC
00B PD.3 PD.2 PD.1 PD.0 PORTD
00C PAM2 PAM1 BD1 BD0 -
00D LVD O/S2 O/S1 O/S0 -
00E TBR.3 TBR.2 TBR.1 TBR.0 TBR
00F INX.3 INX.2 INX.1 INX.0 INX
010 DPL.3 DPL.2 DPL.1 DPL.0 DPL
011 - DPM.2 DPM.1 DPM.0 DPM
012 - DPH.2 DPH.1 DPH.0 DPH
013 PULLEN PH/PL PBCFR EINFR -
014 OXS - OXM OXON -
015 LPS1 LPS0 DUTY1 DUTY0 -
016 PACR.3 PACR.2 PACR.1 PACR.0 PACR
017 PBCR.3 PBCR.2 PBCR.1 PBCR.0 PBCR
018 PCCR.3 PCCR.2 PCCR.1 PCCR.0 PCCR
019 PDCR.3 PDCR.2 PDCR.1 PDCR.0 PDCR
01A RDT.3 RDT.2 RDT.1 RDT.0 -
01B RDT.7 RDT.6 RDT.5 RDT.4 -
01C RDT.11 RDT.10 RDT.9 RDT.8 -
01D RDT.15 RDT.14 RDT.13 RDT.12 -
01E WDF WDT.2 WDT.1 WDT.0 WDT
370 SEL1 SEL0 C2M C1M -
371 C1.3 C1.2 C1.1 C1.0 -
372 OCT1 C1.6 C1.5 C1.4 -
373 C2.3 C2.2 C2.1 C2.0 -
374 C2.7 C2.6 C2.5 C2.4 -
375 C2.11 C2.10 C2.9 C2.8 -
376 OCT2 C2.14 C2.13 C2.12 -
377 VOL1 VOL0 CH2EN CH1EN -
END
types 'show 020\nshow $021\nshow 0x304\nshow 170\nshow 3FF\nshow 000\nshow 371' "$book" --state end.state
quiet
line_is out 3 '$020 1 (high digit of the level)'
line_is out 4 '$021 0 (low digit of the level)'
line_is out 5 '$304 2'
line_is out 6 '$170 -  keeps nothing in memory'
line_is out 7 '$3FF -  keeps nothing in memory'
line_is out 8 '$000       8  IEX 1  IET0 0  IEBT 0  IEP 0               interrupt enable flags'
line_is out 9 '$371       E  C1.3 1  C1.2 1  C1.1 1  C1.0 0             sound channel 1, low nibble'
types 'show 01D-023\nshow 020-020\nshow 348-35A\nshow TM0-BTM' "$book" --state end.state
quiet
line_is out 3 '$010                            0 0 -'
line_is out 4 '$020  1 0 0 0'
line_is out 5 '$020  1'
line_is out 6 '$340                  0 - - - - - - -'
line_is out 7 '$350  - - - - - - - - 0 0 0'
line_is out 8 '$000      0 0'
# Cell by cell a grid has what the state file has.
types 'show 000-3FF' "$book" --state end.state
lines_are 64
tail -n +3 out | cut -c 6- | tr -d ' \n' | tr - 0 >got
head -c 1024 end.state | od -An -v -tx1 | tr -d ' \n' | sed 's/0\(.\)/\1/g' | tr a-f A-F >wanted
same got wanted
size_is got 1024
types 'show all' "$book" --state end.state
quiet
head -n 42 out >got
same got listed
says out 'data cells:'
says out 'display cells:'
says out 'scan cells:'
says out '$340  0 0 0 0 0 0 0 0 0'
lines_are $((40 + 3 + 21 + 5 + 2))
types 'show XYZ\nshow 400\nshow 020 021\nshow 030-020\nshow 020-\nshow -020\nshow 020-400\nshow LCDON-020\nshow 020-LCDON\nshow 020-021-022\nshow -' "$book"
says err 'a cell is 000 to 3FF in hex or a name of the data sheet, not XYZ; usage: show [NAME|CELL|CELL-CELL|all]'
says err 'data sheet, not 400; usage: show'
says err 'too much behind show'
says err 'a range goes from a cell up to a cell, unlike that from 030; usage: show'
says err 'a range goes from a cell up to a cell, unlike that from LCDON; usage: show'
says err 'a range goes from a cell up to a cell, unlike that from 020; usage: show'
says err 'data sheet, not 021-022; usage: show'
says err 'data sheet, not ; usage: show'
if [ "$(wc -l <err)" = 11 ]; then ok; else wrong "$said: $(wc -l <err) lines on stderr"; fi
unmoved

echo "debug: panel, level, list, writers, script"
"$desk" picture "$book" end.state --digits 2 >wanted
types 'panel' "$book" --state end.state --digits 2
quiet
tail -n +3 out >got
same got wanted
"$desk" picture "$book" end.state --columns 5 >wanted
types 'p' "$book" --state end.state --columns 5
tail -n +3 out >got
same got wanted
"$desk" picture "$book" fresh.state >wanted
types 'p' "$book"
tail -n +3 out >got
same got wanted
"$desk" level "$book" end.state >wanted
for word in level lv; do
    types "$word" "$book" --state end.state
    quiet
    tail -n +3 out >got
    same got wanted
done
types 'list' "$book"
quiet
line_is out 3 '> 000 E012 JMP 012'
line_is out 8 '  005 FFFF NOP'
lines_are 6
types 'run 6\nlist\nl 012 3\nlist 017 2\nlist FFE\nlist 000 0\nl 0' "$book"
quiet
line_is out 5 '  012 7995 LDI 015 3'
line_is out 10 '> 017 C030 CALL 030'
line_is out 15 '  01C 3F72 STA 372'
line_is out 16 '  012 7995 LDI 015 3'
line_is out 18 '  014 7A93 LDI 013 5'
line_is out 19 '> 017 C030 CALL 030'
line_is out 20 '  018 7A0C LDI 00C 4'
line_is out 21 '  FFE FFFF NOP'
line_is out 22 '  FFF FFFF NOP'
line_is out 23 '  000 E012 JMP 012'
line_is out 38 '  00F FFFF NOP'
lines_are 36
"$desk" listing "$book" >wanted
types 'list 000 1000000' "$book"
tail -n +3 out | cut -c 3- >got
same got wanted
types 'list 1000\nlist xyz\nlist 000 x\nlist 000 1 2' "$book"
says err 'an address is 000 to FFF in hex, not 1000; usage: list [ADDRESS] [N]'
says err 'an address is 000 to FFF in hex, not xyz; usage: list'
says err 'x is no number up to 1073741824; usage: list'
says err 'too much behind list'
unmoved
for cell in 020 021 '$022' 0x300; do
    "$desk" writers "$book" "$cell" | sed 's/ (.*level)//' >wanted
    types "writers $cell" "$book"
    quiet
    tail -n +3 out | sed 's/ (.*level)//' >got
    same got wanted
done
types 'w 021' "$book"
line_is out 3 'cell $021 (low digit of the level): 4 instructions can change it'
"$desk" writers "$book" --level >wanted
types 'writers level' "$book"
tail -n +3 out >got
same got wanted
types 'writers\nwriters 200\nwriters TBR\nwriters IEX\nwriters 400\nwriters 020 021' "$book"
says err 'something is missing behind writers; usage: writers CELL | writers level'
says err 'the list of writers: refused by 8, value 512: $200 is no data cell'
says err 'the list of writers: refused by 8, value 14: $00E is no data cell'
says err 'the list of writers: refused by 8, value 0: $000 is no data cell'
says err 'data sheet, not 400; usage: writers'
says err 'too much behind writers'
unmoved
types 'script\nstep\nsc\nrun 500\nscript\nrun\nscript' "$book" --script "$script"
quiet
line_is out 3 '0 of 29608 events of the script are done; next: (cycle sound*4)*100 b=0 c=1 a=1 (cycle sound*4)*3500 a=0 ...'
line_is out 6 '1 of 29608 events of the script are done; next: (sound*4 cycle)*99 sound*4 b=0 c=1 a=1 (cycle sound*4)*3500 ...'
line_is out 9 '501 of 29608 events of the script are done; next: c=1 a=1 (cycle sound*4)*3500 a=0 (cycle sound*4)*1000 b=1 ...'
line_is out -1 '29608 of 29608 events of the script are done'
printf 'cycle' >one.script
types 'script' "$book" --script one.script
line_is out 1 "$book, a chip just switched on, the script one.script of 1 event"
line_is out 3 '0 of 1 events of the script are done; next: cycle'
printf 'cycle*9 (base sound)*2 a=1 b=2 c=3 d=4' >few.script
types 'script\nrun 4\nscript' "$book" --script few.script
line_is out 3 '0 of 17 events of the script are done; next: cycle*9 (base sound)*2 a=1 b=2 c=3 d=4'
line_is out -1 '4 of 17 events of the script are done; next: cycle*5 (base sound)*2 a=1 b=2 c=3 d=4'
printf 'cycle*20000000 a=1' >twenty.script
types 'script\nrun 19999999\nscript' "$book" --script twenty.script
line_is out 3 '0 of 20000001 events of the script are done; next: cycle*16777216 ...'
line_is out -1 '19999999 of 20000001 events of the script are done; next: cycle a=1'
types 'script' "$book"
line_is out 3 'there is no script'
: >empty.script
types 'script\nrun\nstep' "$book" --script empty.script
line_is out 3 'there is no script'
says err 'there is no script; run N lets N cycles happen'
types 'script 5\npanel 2\nlevel 1\nwriters 020 #\npanel #' "$book"
says err 'too much behind script; usage: script'
says err 'too much behind panel; usage: panel'
says err 'too much behind level; usage: level'
if [ "$(wc -l <err)" = 3 ]; then ok; else wrong "$said: $(wc -l <err) lines on stderr"; fi

echo "debug: save and load"
# The session's own book and script are never written over.
cp "$book" own.book
cp resets.script own.script
types 'save own.book --force\nsave own.script --force' own.book --script own.script
says err 'own.book is read by this command and is left as it is, --force or not'
says err 'own.script is read by this command and is left as it is, --force or not'
same own.book "$book"
same own.script resets.script
"$desk" run "$book" "$script" --stop 010 --save ready.state >/dev/null
types 'to 010\nsave saved.state' "$book" --script "$script"
quiet
says out 'state saved in saved.state'
same saved.state ready.state
size_is saved.state 1069
types 'run\nload saved.state\nsave loaded.state\nreg\nscript' "$book" --script "$script"
quiet
line_is out 5 'state taken from saved.state'
line_is out 6 'after 29608 events: PC $010, AC 8, CY 1, running; at PC 010 D800 HALT'
line_is out -1 '29608 of 29608 events of the script are done'
same loaded.state ready.state
cp saved.state kept
types 'save saved.state\nlevel' "$book"
says err 'saved.state exists and is left as it is; --force writes over it'
says out 'level -2'
same saved.state kept
types 'save saved.state --force\nsave --force saved.state' "$book"
quiet
same saved.state fresh.state
mkfifo pipe
ln -s saved.state link
types 'save nowhere/x\nsave pipe --force\nsave link --force\nsave\nsave --force\nsave a b\nsave --nonsense\nsave a --nonsense\nsave a b --force' "$book"
says err 'cannot write nowhere/x'
says err 'cannot write pipe: it is no ordinary file and is left as it is'
says err 'cannot write link: it is no ordinary file and is left as it is'
says err 'something is missing behind save; usage: save FILE [--force]'
says err 'not understood: b; usage: save FILE [--force]'
says err 'not understood: --nonsense; usage: save FILE [--force]'
says err 'too much behind save'
if [ "$(wc -l <err)" = 9 ]; then ok; else wrong "$said: $(wc -l <err) lines on stderr"; fi
unmoved
absent a
no_parts
# What is no state is told, and the old one stays.
types 'run 700\nload nowhere.state\nload folder\nload pipe\nload short.state\nload cell.state\nload record.state\nload\nload a b\nsave stays.state' "$book" --script "$script"
says err 'cannot read nowhere.state'
says err 'cannot read folder: it is no ordinary file'
says err 'cannot read pipe: it is no ordinary file'
says err 'short.state is no state: it has 1000 bytes'
says err 'cell.state: refused by 3, value 0: memory cell $000 holds what this cell cannot hold'
says err 'record.state: refused by 4, value 0'
says err 'something is missing behind load; usage: load FILE'
says err 'too much behind load'
same stays.state marked.state

echo "debug: the recorded session"
(cd "$root" && "$desk" debug examples/dispatcher.book --script examples/dispatcher.script --digits 2 --echo \
    <examples/dispatcher.debug) >recorded 2>&1
said='the recorded session (make recording)'
same recorded "$root/docs/debugger.txt"
says recorded '  event 23057: $020 0 -> 1  by  027 3C20 STA 020'

echo "debug: output that cannot be written"
if [ -w /dev/full ]; then
    echo 'help' | "$desk" debug "$book" >/dev/full 2>err && wrong "a full disk is not noticed" || ok
    says err 'could not be written'
fi
no_parts

echo "$passed passed, $failed failed"
[ "$failed" = 0 ]
