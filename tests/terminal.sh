#!/bin/sh
# Tests of the desk command at a terminal: terminal.sh PATH-OF-DESK PATH-OF-SLOW-DESK (slow.c) PATH-OF-TERMINAL
# (terminal.c), from the repository's folder.
desk=$(realpath "$1") || exit 2
slow=$(realpath "$2") || exit 2
terminal=$(realpath "$3") || exit 2
. tests/desk-lib.sh

# at STATUS DOINGS WORDS...: runs a command at a terminal, where a person does what the lines say; what is seen is kept
# in out.
at() {
    wanted=$1
    doings=$2
    shift 2
    said="at a terminal: $*"
    printf '%s' "$doings" | "$terminal" "$@" >out 2>err
    got=$?
    if [ "$got" = "$wanted" ]; then ok; else wrong "$said: status $got, not $wanted"; cat err; tail -c 2000 out; fi
}

says_not() {
    if grep -qF -- "$2" "$1"; then wrong "$said: '$2' in std$1:"; tail -c 2000 "$1"; else ok; fi
}

told='desk: '
interrupted=130
printf 'cycle*40000000' >long.script
printf ' ORG 0\nhere: ADIM $020, 1\n LDA $020\n JMP here\n LDI $021, 1\n' >busy.asm
ends 0 book make busy.book busy.asm "$examples/dispatcher.wiring" "$examples/dispatcher.level"

echo "terminal: progress"
# More than a second of watching: it is told how far it is. ctrl-C ends it at once.
at $interrupted 'expect events looked at, 1 s
expect events looked at, 2 s
key C-c
' "$desk" run busy.book long.script --watch 021 --save never.state
says out ' of 40000000 events looked at, 1 s'
absent never.state
no_parts
# A report tells how far it is from stop to stop, and then with looking at each event.
at $interrupted 'expect events run from stop to stop, 1 s
key C-c
' "$desk" report busy.book --script long.script --stop 000 --out never.html
says out ' of 40000000 events run from stop to stop, 1 s'
at $interrupted 'expect events looked at, 1 s
key C-c
' "$desk" report busy.book --script long.script --out never.html
absent never.html
no_parts
# A short run tells nothing of it, and takes no line back.
at 0 '' "$desk" run "$book" "$script"
says_not out "$(printf '\r%s' "$told")"
says out "stopped at the script's end"
# What is told goes to standard error, and is taken away before the end. As many events as take three seconds here.
printf 'cycle*500000' >probe.script
began=$(date +%s%N)
ends 0 run busy.book probe.script --watch 021
milliseconds=$((($(date +%s%N) - began) / 1000000 + 1))
events=$((500000 / milliseconds * 3000))
printf 'cycle*%s' $events >seconds.script
at 0 'expect events looked at, 1 s
' sh -c '"$1" run busy.book seconds.script --watch 021 >shown' sh "$desk"
says shown "$events of $events events done"
if grep -q "$(printf '\r')" shown; then wrong "$said: progress on standard output"; else ok; fi
case $(tail -c 4 out) in *"$(printf '\r\033[K')") ok ;; *) wrong "$said: what is told is not taken away" ;; esac
# Where standard error is no terminal nothing is told.
at 0 '' sh -c '"$1" run busy.book seconds.script --watch 021 2>told' sh "$desk"
if [ -s told ]; then wrong "$said: something is told"; else ok; fi
says_not out 'events looked at'
# A trace whose lines go elsewhere tells of it, also one that has none; where they are seen, they tell enough.
at $interrupted 'expect events traced, 1 s
key C-c
' sh -c 'exec "$1" trace busy.book long.script >shown' sh "$desk"
says out ' of 40000000 events traced, 1 s'
ends 0 trace busy.book "$script" --vcd kept.vcd
cp kept.vcd before.vcd
at $interrupted 'expect events traced, 1 s
key C-c
' "$desk" trace busy.book long.script --vcd kept.vcd --force
says_not out 'ADIM'
same kept.vcd before.vcd
no_parts
at $interrupted 'expect ADIM 020 1
wait 1.5
key C-c
' "$desk" trace busy.book long.script
says_not out 'events traced'

echo "terminal: the debugger"
# It has a prompt, tells its progress, and is back at the prompt by ctrl-C, with the events that were done.
at 0 'expect help lists the words
expect desk> 
type until 021 1000000000
expect events looked at, 1 s
key C-c
expect without a change; stopped by ctrl-C
expect desk> 
type run 1000000000
expect  of 1000000000 events done, 1 s
key C-c
expect  events done of 1000000000; stopped by ctrl-C
expect desk> 
key C-c
expect desk> 
type back
expect after 0 events
expect desk> 
type level
expect level -2
expect desk> 
type step
expect ADIM 020 1
type 
expect LDA 020
type step 100000000
wait 0.5
key C-c
expect shown; stopped by ctrl-C
expect desk> 
key C-d
' "$desk" debug busy.book
# Whenever it is typed at the prompt, it is heeded.
at 0 "expect desk> 
$(for turn in 1 2 3 4 5 6 7 8 9 10 11 12 13 14 15 16 17 18 19 20; do printf 'key C-c\nexpect desk> \n'; done)
type quit
" "$desk" debug busy.book
at 0 'expect desk> 
type quit
' "$desk" debug busy.book
# Fed through a pipe it has none, and ctrl-C ends it.
at 0 '' sh -c 'echo step | "$1" debug busy.book' sh "$desk"
says out 'ADIM 020 1'
says_not out 'desk>'
at $interrupted 'expect events looked at, 1 s
key C-c
' sh -c 'echo "until 021 1000000000" | "$1" debug busy.book' sh "$desk"

echo "terminal: ctrl-C while a file is written"
ends 0 fresh kept.state
cp kept.state before
# The file beside it is there while the disk takes its time; then it is gone, and the one that was there is whole.
at $interrupted 'wait 0.7
key C-c
' "$slow" fresh kept.state --options 3 --force
same kept.state before
no_parts
at $interrupted 'wait 0.7
key C-c
' "$slow" fresh new.state
absent new.state
no_parts
at $interrupted 'wait 0.7
key C-c
' "$slow" trace busy.book "$script" --vcd kept.vcd --force --options 1
same kept.vcd before.vcd
no_parts
# It was met half way: without ctrl-C it is written.
at 0 '' "$slow" fresh kept.state --options 3 --force
cmp -s kept.state before && wrong "$said: nothing is written" || ok
no_parts
# The same of what ends a command from outside, while the part is there.
cp before kept.state
for signal in 'TERM 143' 'HUP 129'; do
    at "${signal#* }" "wait 0.7
sh ls kept.state.part-* >/dev/null
signal ${signal% *}
" "$slow" fresh kept.state --options 3 --force
    same kept.state before
    no_parts
done
# A file that comes to be there meanwhile is not written over.
at 2 'wait 0.7
sh echo theirs >meanwhile.state
' "$slow" fresh meanwhile.state
says out 'cannot write meanwhile.state'
echo theirs >theirs
same meanwhile.state theirs
no_parts

echo "$passed passed, $failed failed"
[ "$failed" = 0 ]
