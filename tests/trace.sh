#!/bin/sh
# Tests of desk trace: trace.sh PATH-OF-DESK PATH-OF-DEAF-DESK (deaf.c) PATH-OF-FOLLOWED (followed.c) DRAWS, from the
# repository's folder; so many drawn books are followed.
desk=$(realpath "$1") || exit 2
deaf=$(realpath "$2") || exit 2
followed=$(realpath "$3") || exit 2
draws=$4
. tests/desk-lib.sh

# The lines of events alone, without the line that heads them and what stands behind them.
events_of() {
    grep '^ *[0-9][0-9]*  [a-z]' "$1"
}

# shows: the last run's output is what stands in the file wanted.
shows() {
    if cmp -s out wanted; then ok; else wrong "$said:"; diff wanted out; fi
}

echo "trace: help and wrong use"
ends 0 trace --help
says out 'usage: desk trace BOOK SCRIPT [--from N] [--count N] [--state FILE | --options N] [--raw-script]'
says out '[--vcd FILE [--lines] [--force]]'
says out 'EVENT*N'
says out 'A time unit is a'
quiet
ends 0 --help
says out "shows a script's events one by one"
ends 2 trace
says err 'usage: desk trace'
ends 2 trace "$book"
says err 'something is missing'
ends 2 trace "$book" "$script" more
says err 'one word too many: more'
ends 2 trace "$book" "$script" --nonsense
says err 'unknown option --nonsense'
for option in --from --count --state --options --vcd; do
    ends 2 trace "$book" "$script" $option
    says err "a value is due after $option"
done
for option in --from --count --options; do
    for number in x -1 1x '' 4294967296 1.5; do
        ends 2 trace "$book" "$script" $option "$number"
        says err "a number up to 4294967295 is due here, not $number"
        unbegun
    done
done
ends 2 trace "$book" "$script" --force
says err '--force is for the file of --vcd'
ends 2 trace "$book" "$script" --lines
says err 'lines are shown anyway without --vcd'
ends 2 trace "$book" "$script" --state a.state --options 1
says err 'options are for a fresh machine'
ends 2 trace nowhere.book "$script"
says err 'cannot read nowhere.book'
ends 2 trace "$book" nowhere.script
says err 'cannot read nowhere.script'
ends 2 trace "$book" "$script" --state nowhere.state
says err 'cannot read nowhere.state'
printf 'cycle\nbang\n' >bad.script
ends 2 trace "$book" bad.script
says err 'bad.script:2: bang is no event'
unbegun

echo "trace: a small program, event by event"
cat >events.asm <<'END'
        ORG $000
        JMP start
        JMP called      ; the external interrupt
        ORG $010
start:  LDI $013, 5     ; its rising edge
        LDI $000, 8
        HALT
        LDI $020, 9
        STOP
        DW $F800
        ORG $018
called: ANDIM $001, 7
        LDI $000, 8
        RTNI
END
printf '$300.0 $348.3' >small.wiring
printf 'high $020 low $021 ground 2' >small.level
ends 0 book make events.book events.asm small.wiring small.level
printf 'cycle*3 b=6 c=A d=F sound base watchdog cycle*2 a=1 cycle*8 a=0 a=1 cycle*6' >events.script
cat >whole <<'END'
   event  what       at  word instruction  PC  AC CY  mode     changes, before -> after
       0  cycle      000 E010 JMP 010      010  0  0  running
       1  cycle      010 7A93 LDI 013 5    011  5  0  running  $013 4 -> 5
       2  cycle      011 7C00 LDI 000 8    012  8  0  running  $000 0 -> 8
       3  b=6       (012 D800 HALT)        012  8  0  running  pins B 0 -> 6
       4  c=A       (012 D800 HALT)        012  8  0  running  pins C 0 -> A
       5  d=F       (012 D800 HALT)        012  8  0  running  pins D 0 -> F
       6  sound     (012 D800 HALT)        012  8  0  running
       7  base      (012 D800 HALT)        012  8  0  running
       8  watchdog  (012 D800 HALT)        012  8  0  running
       9  cycle      012 D800 HALT         013  8  0  HALT
      10  cycle     (013 7CA0 LDI 020 9)   013  8  0  HALT     asleep
      11  a=1       (013 7CA0 LDI 020 9)   013  8  0  HALT     $001 0 -> 8  pins A 0 -> 1
      12  cycle     (013 7CA0 LDI 020 9)   001  8  0  running  interrupt to $001  $000 8 -> 0
      13  cycle      001 E018 JMP 018      018  8  0  running
      14  cycle      018 7381 ANDIM 001 7  019  0  0  running  $001 8 -> 0
      15  cycle      019 7C00 LDI 000 8    01A  8  0  running  $000 0 -> 8
      16  cycle      01A D400 RTNI         013  8  0  running
      17  cycle      013 7CA0 LDI 020 9    014  9  0  running  $020 0 -> 9
      18  cycle      014 DC00 STOP         015  9  0  STOP
      19  cycle     (015 F800 DATA)        015  9  0  STOP     asleep
      20  a=0       (015 F800 DATA)        015  9  0  STOP     pins A 1 -> 0
      21  a=1       (015 F800 DATA)        015  9  0  STOP     $001 0 -> 8  pins A 0 -> 1
      22  cycle     (015 F800 DATA)        001  9  0  running  interrupt to $001  $000 8 -> 0
      23  cycle      001 E018 JMP 018      018  9  0  running
      24  cycle      018 7381 ANDIM 001 7  019  0  0  running  $001 8 -> 0
      25  cycle      019 7C00 LDI 000 8    01A  8  0  running  $000 0 -> 8
      26  cycle      01A D400 RTNI         015  8  0  running
27 of 28 events done, 27 shown, 0 to 26; stopped before a word that is no instruction, at $015
PC $015, AC 8, CY 0, running
sound channel 1: output 0, count 0; channel 2: output 0, count 0
END
cp whole wanted
ends 1 trace events.book events.script
shows
says err 'desk: event 27: refused by 6, value 21: the cycle would execute the word at $015, which is no instruction'
# Both resets: by the pin, and by the watchdog, whose period of one the program asks for.
cat >resets.asm <<'END'
        LDI $020, 7
        ADI $020, 12
        LDI $01E, 7
END
ends 0 book make resets.book resets.asm small.wiring small.level
printf 'cycle*2 reset cycle*3 watchdog cycle' >resets.script
cat >wanted <<'END'
   event  what       at  word instruction  PC  AC CY  mode     changes, before -> after
       0  cycle      000 7BA0 LDI 020 7    001  7  0  running  $020 0 -> 7
       1  cycle      001 4620 ADI 020 C    002  3  1  running
       2  reset     (002 7B9E LDI 01E 7)   000  0  0  running
       3  cycle      000 7BA0 LDI 020 7    001  7  0  running
       4  cycle      001 4620 ADI 020 C    002  3  1  running
       5  cycle      002 7B9E LDI 01E 7    003  7  1  running  $01E 0 -> 7
       6  watchdog  (003 FFFF NOP)         000  0  0  running  $01E 7 -> 8
       7  cycle      000 7BA0 LDI 020 7    001  7  0  running
8 of 8 events done, 8 shown, 0 to 7; stopped at the script's end
PC $001, AC 7, CY 0, running
sound channel 1: output 0, count 0; channel 2: output 0, count 0
END
ends 0 trace resets.book resets.script --options 1
shows
quiet
# A watchdog that is off resets nothing; bytes by their number, and the same script as bytes.
ends 0 trace resets.book resets.script
says out '       6  watchdog  (003 FFFF NOP)         003  7  1  running'
printf '$00 $4A $01' >numbered.script
printf '\000\112\001' >numbered.bytes
cat >wanted <<'END'
   event  what       at  word instruction  PC  AC CY  mode     changes, before -> after
       0  cycle      000 7BA0 LDI 020 7    001  7  0  running  $020 0 -> 7
       1  d=A       (001 4620 ADI 020 C)   001  7  0  running  pins D 0 -> A
       2  base      (001 4620 ADI 020 C)   001  7  0  running
3 of 3 events done, 3 shown, 0 to 2; stopped at the script's end
PC $001, AC 7, CY 0, running
sound channel 1: output 0, count 0; channel 2: output 0, count 0
END
ends 0 trace resets.book numbered.script
shows
ends 0 trace resets.book numbered.bytes --raw-script
shows
: >empty.script
cat >wanted <<'END'
   event  what       at  word instruction  PC  AC CY  mode     changes, before -> after
0 of 0 events done, none shown; stopped at the script's end
PC $000, AC 0, CY 0, running
sound channel 1: output 0, count 0; channel 2: output 0, count 0
END
ends 0 trace resets.book empty.script
shows
ends 0 trace resets.book empty.script --from 0 --count 0
shows

echo "trace: some of the events"
# part FROM COUNT LINES STATUS: the lines of these events are those of the whole trace, and the end tells of them.
part() {
    ends "$4" trace events.book events.script --from "$1" --count "$2"
    events_of out >got
    sed -n "$(($1 + 2)),$(($1 + 1 + $3))p" whole >wanted
    same got wanted
    says out "$(($1 + $3)) of 28 events done, $3 shown, $1 to $(($1 + $3 - 1))"
}
for from in 0 1 9 12 26; do
    for count in 1 5 12; do
        if [ $((from + count)) -le 27 ]; then
            part $from $count $count 0
            says out 'stopped after the events asked for'
            quiet
        else
            part $from $count $((27 - from)) 1
            says out ", fewer than the $count asked for; stopped before a word that is no instruction, at \$015"
            says err 'event 27: refused by 6, value 21'
        fi
    done
done
ends 1 trace events.book events.script --from 4
sed '/^ *[0-3]  /d' whole >wanted
sed -i 's/27 shown, 0 to 26/23 shown, 4 to 26/' wanted
shows
ends 0 trace events.book events.script --count 0
says out '0 of 28 events done, none shown; stopped after the events asked for'
ends 0 trace events.book events.script --from 20 --count 0
says out '20 of 28 events done, none shown; stopped after the events asked for'
says out 'PC $015, AC 9, CY 0, asleep in STOP'
# The event that is refused, and those past the end.
ends 1 trace events.book events.script --from 27
says out '27 of 28 events done, none shown; stopped before a word that is no instruction, at $015'
says err 'event 27: refused by 6, value 21'
for from in 28 29 4294967295; do
    ends 2 trace events.book events.script --from $from
    says err "events.script has 28 events, counted from 0, so there is no event $from to begin with"
    unbegun
done
printf 'cycle' >one.script
ends 2 trace events.book one.script --from 1
says err 'one.script has 1 event, counted from 0, so there is no event 1 to begin with'
ends 2 trace events.book empty.script --from 1
says err 'empty.script has 0 events'
printf 'cycle*3 b=6 c=A d=F sound base watchdog cycle*2 a=1 cycle*8 a=0 a=1 cycle*9' >longer.script
ends 1 trace events.book longer.script --from 29
says out '27 of 31 events done, none shown, since event 29 was not come to; stopped before a word that is no'
says err 'event 27: refused by 6, value 21'
ends 1 trace events.book longer.script --from 29 --count 2 --vcd never.vcd
says out 'none shown, since event 29 was not come to, fewer than the 2 asked for; stopped before'
absent never.vcd
ends 0 trace resets.book resets.script --from 6 --count 9
says out "8 of 8 events done, 2 shown, 6 to 7, fewer than the 9 asked for; stopped at the script's end"
ends 0 trace resets.book resets.script --from 6 --count 2
says out "8 of 8 events done, 2 shown, 6 to 7; stopped at the script's end"
# The example, cut anywhere, and from a state; a trace ends where a run does.
ends 0 trace "$book" "$script"
events_of out >all
if [ "$(wc -l <all)" = 29608 ]; then ok; else wrong "the example has $(wc -l <all) lines"; fi
tail -n 2 out >traced.end
ends 0 run "$book" "$script"
tail -n 2 out >run.end
same traced.end run.end
for cut in 1 280 573 23057 29607; do
    ends 0 trace "$book" "$script" --from $cut --count 100
    events_of out >got
    tail -n +$((cut + 1)) all | head -n 100 >wanted
    same got wanted
done
printf '(cycle sound*4)*100' >first.script
ends 0 run "$book" first.script --save first.state
printf 'b=0 c=1 a=1 (cycle sound*4)*20' >second.script
ends 0 trace "$book" second.script --state first.state
events_of out | sed 's/^ *[0-9]*//' >got
sed -n '501,603p' all | sed 's/^ *[0-9]*//' >wanted
same got wanted

echo "trace: what is refused"
# 5 judges the whole script, also what is not shown; a state's 3 and 4 come before it.
printf 'cycle*5 $04 cycle' >unknown.script
for words in '' '--count 2' '--from 6' '--from 2 --count 1' '--count 0' '--vcd never.vcd'; do
    # shellcheck disable=SC2086
    ends 1 trace "$book" unknown.script $words
    says err 'desk: the trace: refused by 5, value 5: place 5 of the script, counted from 0, has an unknown event'
    unbegun
done
ends 0 fresh fresh.state
{ printf '\020'; tail -c +2 fresh.state; } >cell.state
{ head -c 1024 fresh.state; printf '\020'; tail -c 44 fresh.state; } >record.state
head -c 1068 fresh.state >short.state
for from in 0 5; do
    for events in "$script" unknown.script; do
        ends 1 trace "$book" "$events" --state cell.state --from $from --vcd never.vcd
        says err 'the trace: refused by 3, value 0: memory cell $000'
        unbegun
        ends 1 trace "$book" "$events" --state record.state --from $from
        says err 'the trace: refused by 4, value 0'
        unbegun
    done
done
ends 2 trace "$book" "$script" --state short.state
says err 'short.state is no state'
ends 1 trace "$book" "$script" --options 8 --vcd never.vcd
says err 'a fresh machine: refused by 12, value 8'
unbegun
head -c 100 "$book" >short.book
ends 1 trace short.book "$script" --vcd never.vcd
says err 'short.book: refused by 10, value 0'
unbegun
absent never.vcd

echo "trace: value change dumps"
ends 1 trace events.book events.script --vcd events.vcd
says out 'events.vcd: 17 signals over 27 events, from time 0 to 18, a unit for each cycle'
says out '27 of 28 events done, 27 dumped, 0 to 26; stopped before a word that is no instruction, at $015'
says err 'event 27: refused by 6, value 21'
grep -q 'JMP' out && wrong "$said: lines are shown" || ok
cp events.vcd kept
ends 2 trace events.book events.script --vcd events.vcd
says err 'events.vcd exists and is left as it is; --force writes over it'
unbegun
printf 'mine' >events.vcd
ends 2 trace events.book events.script --vcd events.vcd
printf 'mine' >wanted
same events.vcd wanted
ends 1 trace events.book events.script --vcd events.vcd --force --lines
same events.vcd kept
{ sed '/^27 of/,$d' whole; echo 'events.vcd: 17 signals over 27 events, from time 0 to 18, a unit for each cycle'
  sed -n '/^27 of/,$p' whole; } >wanted
shows
# A small one, whole: two events before the first cycle, one cycle, two sound clocks, a cycle that changes PC alone.
printf 'a=5 d=C cycle sound*2 cycle' >dumped.script
ends 0 trace resets.book dumped.script --vcd dumped.vcd
sed '1,/^\$end/d' dumped.vcd >got
cat >wanted <<'END'
$version Galhoveia desk trace $end
$timescale 1 us $end
$scope module cpu $end
$var wire 12 A pc [11:0] $end
$var wire 4 B ac [3:0] $end
$var wire 1 C cy $end
$var wire 2 D mode [1:0] $end
$upscope $end
$scope module pins $end
$var wire 4 E pins_a [3:0] $end
$var wire 4 F pins_b [3:0] $end
$var wire 4 G pins_c [3:0] $end
$var wire 4 H pins_d [3:0] $end
$upscope $end
$scope module ports $end
$var wire 4 I port_a [3:0] $end
$var wire 4 J port_b [3:0] $end
$var wire 4 K port_c [3:0] $end
$var wire 4 L port_d [3:0] $end
$upscope $end
$scope module timer0 $end
$var wire 8 M timer0_counter [7:0] $end
$upscope $end
$scope module level $end
$var wire 4 N level_high [3:0] $end
$var wire 4 O level_low [3:0] $end
$upscope $end
$scope module sound $end
$var wire 1 P sound_1 $end
$var wire 1 Q sound_2 $end
$upscope $end
$enddefinitions $end
#0
$dumpvars
b000000000000 A
b0000 B
0C
b00 D
b0000 E
b0000 F
b0000 G
b0000 H
b0000 I
b0000 J
b0000 K
b0000 L
b00000000 M
b0000 N
b0000 O
0P
0Q
$end
b0101 E
b1100 H
#1
b000000000001 A
b0111 B
b0111 N
#2
b000000000010 A
b0011 B
1C
#3
END
same got wanted
sed '/^\$end/q' dumped.vcd >got
said='the dump of resets.book'
cp got out
says out 'One time unit is one instruction cycle.'
says out 'level_high: cell 020; level_low: cell 021 (hex).'
# The cells of another book's level, and times that go on from the events before.
printf 'high $021 low $020 ground 2' >turned.level
ends 0 book make turned.book resets.asm small.wiring turned.level
ends 0 trace turned.book dumped.script --from 3 --count 2 --vcd turned.vcd
says out 'turned.vcd: 17 signals over 2 events, from time 1 to 1, a unit for each cycle'
cp turned.vcd out
says out 'level_high: cell 021; level_low: cell 020 (hex).'
printf '#1\nb0000 N\nb0111 O\n#2\n' >wanted
sed -n '/^#/p;/[NO]$/p' turned.vcd >got
same got wanted
ends 0 trace turned.book empty.script --vcd empty.vcd
says out 'empty.vcd: 17 signals over 0 events, from time 0 to 0'
tail -n 2 empty.vcd >got
printf '$end\n#1\n' >wanted
same got wanted
# Nothing in it changes from one day to the next.
ends 0 trace "$book" "$script" --vcd one.vcd
ends 0 trace "$book" "$script" --vcd two.vcd
same one.vcd two.vcd

echo "trace: files in the way"
mkdir folder
mkfifo pipe
ln -s events.vcd link
for odd in folder pipe link; do
    ends 2 trace events.book events.script --vcd $odd --force
    says err "cannot write $odd: it is no ordinary file and is left as it is"
    unbegun
done
ends 2 trace events.book events.script --vcd nowhere/events.vcd
says err 'cannot write nowhere/events.vcd'
unbegun
same events.vcd kept
no_parts
if [ -w /dev/full ]; then
    "$desk" trace "$book" "$script" >/dev/full 2>err && wrong "a full disk is not noticed" || ok
    says err 'could not be written'
fi
# A trace that is ended from outside leaves the file as it was.
printf 'cycle*100000000' >endless.script
"$desk" trace events.book endless.script --vcd events.vcd --force --state first.state >out 2>err &
sleep 1
kill "$!"
wait "$!" 2>/dev/null && wrong "an ended trace ends well" || ok
same events.vcd kept
no_parts

echo "trace: a step with a fault in it"
proved=$desk
desk=$deaf
ends 3 trace "$book" "$script" --vcd never.vcd --lines
says out '       0  cycle      000 E012 JMP 012'
says err 'desk: FAULT: single steps and the run come to different states'
says err 'report it'
ends 3 trace "$book" "$script" --options 1
says err 'desk: FAULT: event 1 was done by the run'
ends 3 trace "$book" "$script" --options 1 --from 6
says err 'desk: FAULT: event 6 was done by the run'
ends 0 trace "$book" "$script" --from 5 --count 1
desk=$proved
absent never.vcd

echo "trace: held to the second emulator"
: >counts
# hold BOOK STATE SCRIPT-OF-BYTES FROM COUNT LINES DUMP
hold() {
    said="followed hold $*"
    "$followed" hold "$@" >held
    head -n -1 held | grep -v '^held ' && said="$said, said above"
    grep '^held ' held >>counts
    line=$(tail -n 1 held)
    case $line in
    [0-9]*' passed, '[0-9]*' failed')
        line=${line% failed}
        passed=$((passed + ${line%% passed*}))
        failed=$((failed + ${line##* }))
        ;;
    *) wrong "$said: $line" ;;
    esac
}
turns() {
    turn=0
    while [ $turn -lt "$1" ]; do
        printf '\000\005\005\005\005'
        turn=$((turn + 1))
    done
}
{ turns 100; printf '\040\061\021'; turns 3500; printf '\020'; turns 1000; printf '\041\060\021'; turns 1300
  printf '\020'; turns 20; } >example.bytes
ends 0 trace "$book" "$script"
cp out lines
hold "$book" fresh.state example.bytes 0 29608 lines one.vcd
# drawn BOOK STATE SCRIPT FROM COUNT
drawn() {
    "$desk" trace "$1" "$3" --raw-script --state "$2" --from "$4" --count "$5" >lines 2>err
    shown_so=$?
    "$desk" trace "$1" "$3" --raw-script --state "$2" --from "$4" --count "$5" --vcd drawn.vcd --force >out 2>err
    dumped_so=$?
    if [ $shown_so -le 1 ] && [ $shown_so = $dumped_so ]; then ok; else wrong "drawn: $shown_so, $dumped_so"; cat err; fi
    hold "$1" "$2" "$3" "$4" "$5" lines drawn.vcd
}
seed=1
while [ $seed -le "$draws" ]; do
    "$followed" draw $seed 3000 drawn "$book" || wrong "nothing is drawn from $seed"
    drawn drawn.book drawn.state drawn.script 0 3000
    drawn "$book" drawn.state drawn.script $((seed % 7 * 100)) 1500
    seed=$((seed + 1))
done
awk '{ events += $2; executed += $4; interrupts += $6; asleep += $8; unlisted += $10 }
     END { printf "%d events held: %d executed, %d interrupts, %d asleep; %d traces ended before an unlisted word\n",
                  events, executed, interrupts, asleep, unlisted
           exit !(events && executed && interrupts && asleep && unlisted) }' counts && ok || wrong "not all was met"
no_parts

echo "$passed passed, $failed failed"
[ "$failed" = 0 ]
