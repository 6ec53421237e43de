#!/bin/sh
# Tests of desk report: report.sh PATH-OF-DESK PATH-OF-CHECKER (page_checker.c), from the repository's folder.
desk=$(realpath "$1") || exit 2
checker=$(realpath "$2") || exit 2
top=$(realpath .) || exit 2
. tests/desk-lib.sh

# judged PAGE BOOK WORDS...: the page is what the second emulator makes of the same book and words.
judged() {
    "$checker" "$@" >verdict 2>&1
    status=$?
    counts=$(tail -n 1 verdict | sed -n 's/^\([0-9][0-9]*\) passed, \([0-9][0-9]*\) failed$/\1 \2/p')
    if [ -z "$counts" ] || [ "$status" != 0 ]; then wrong "$said: the page is judged wrong:"; cat verdict; fi
    [ -z "$counts" ] || passed=$((passed + ${counts% *}))
}

# reports STATUS BOOK WORDS...: a page is written, and judged.
reports() {
    wanted_status=$1
    shift
    ends "$wanted_status" report "$@" --out page.html --force
    judged page.html "$@"
}

# page_says TEXT
page_says() {
    if grep -qF -- "$1" page.html; then ok; else wrong "$said: no '$1' in the page"; fi
}

# Some bodies: $020 and $021 hold the level, with ground 2.
printf '$300.0 $348.3' >small.wiring
printf 'high $020 low $021 ground 2' >small.level

# makes BOOK ASSEMBLY: a book of a program and the small bodies.
makes() {
    printf '%s\n' "$2" >made.asm
    ends 0 book make "$1" made.asm small.wiring small.level --force
}

echo "report: help and wrong use"
ends 0 report --help
says out 'usage: desk report BOOK [--script FILE [--stop HEX] [--raw-script] [--state FILE | --options N]]'
says out 'the status is 1'
says out 'EVENT*N'
quiet
ends 2 report
says err 'usage: desk report'
ends 2 report "$book"
says err 'a file for the page is due, by --out FILE.html'
ends 2 report "$book" --out
says err 'a value is due after --out'
ends 2 report "$book" another.book --out page.html
says err 'one word too many: another.book'
ends 2 report "$book" --nonsense --out page.html
says err 'unknown option --nonsense'
for words in '--stop 010' '--state kept' '--options 1' --raw-script; do
    # shellcheck disable=SC2086
    ends 2 report "$book" $words --out page.html
    says err "without --script there is no run for ${words%% *}"
done
ends 2 report "$book" --script "$script" --state kept --options 1 --out page.html
says err 'options are for a fresh machine'
ends 2 report "$book" --script "$script" --stop 12G --out page.html
says err 'not a hex number'
ends 2 report "$book" --script "$script" --options x --out page.html
ends 2 report "$book" --digits 3 --out page.html
says err '3 digits need 21 elements'
ends 2 report "$book" --columns 0 --out page.html
says err 'at least one column'
ends 2 report nowhere.book --out page.html
says err 'cannot read nowhere.book'
ends 2 report "$book" --script nowhere.script --out page.html
says err 'cannot read nowhere.script'
ends 2 report "$book" --script "$script" --state nowhere.state --out page.html
says err 'cannot read nowhere.state'
printf 'cycle\ncycles\n' >bad.script
ends 2 report "$book" --script bad.script --out page.html
says err 'bad.script:2: cycles'
unbegun
absent page.html
no_parts

echo "report: files in the way"
printf 'kept\n' >page.html
cp page.html kept
ends 2 report "$book" --out page.html
says err 'page.html exists and is left as it is'
unbegun
same page.html kept
ends 2 report "$book" --out nowhere/page.html
says err 'cannot write nowhere/page.html'
mkdir folder
mkfifo pipe
ln -s kept link
for odd in folder pipe link; do
    ends 2 report "$book" --out $odd --force
    says err "cannot write $odd: it is no ordinary file"
done
if [ -d folder ] && [ -p pipe ] && [ -L link ]; then ok; else wrong "a folder, pipe or link was replaced"; fi
same link page.html
ends 0 report "$book" --out page.html --force
quiet
says out "page.html: a report of $(wc -c <page.html) bytes"
judged page.html "$book"
ends 0 report "$book" --out ./new.html
case $(ls -l new.html) in -rw*) ok ;; *) wrong "the page's mode" ;; esac
ends 0 report --out -- --force -- "$book"
judged ./-- "$book"
no_parts

echo "report: the example"
reports 0 "$book" --script "$script" --stop 010 --digits 2
quiet
cp page.html example.html
page_says 'data-element="3" data-lit="1"'
page_says 'work at level 6 would be filed under level 8'
page_says 'href="#a027"'
reports 0 "$book" --script "$script" --stop 010
reports 0 "$book" --script "$script" --stop 010 --digits 1 --columns 4
reports 0 "$book" --script "$script" --stop 010 --columns 3
reports 0 "$book" --script "$script"
reports 0 "$book" --script "$script" --stop 1000
reports 0 "$book" --script "$script" --stop 030 --options 7
ends 0 report "$book" --script "$script" --stop 010 --digits 2 --title 'North tower' --out page.html --force
judged page.html "$book" --script "$script" --stop 010 --digits 2 --shown-title 'North tower'
# From a state, and by raw bytes.
ends 0 run "$book" "$script" --stop 010 --save ready.state
printf 'b=0 c=1 a=1\ncycle*105 a=0' >below.script
printf '\040\061\021' >below.bytes
head -c 105 /dev/zero >>below.bytes
printf '\020' >>below.bytes
reports 0 "$book" --script below.script --state ready.state --digits 2
grep -v 'below\.' page.html >text.html
reports 0 "$book" --script below.bytes --raw-script --state ready.state --digits 2
grep -v 'below\.' page.html >raw.html
same text.html raw.html
: >empty.script
reports 0 "$book" --script empty.script --stop 000
page_says '<b>0 of 0</b> events done'

echo "report: the same bytes"
cp example.html before.html
ends 0 report "$book" --script "$script" --stop 010 --digits 2 --out page.html --force
same page.html before.html
mkdir elsewhere
(cd elsewhere && TZ=Asia/Tokyo LC_ALL=C "$desk" report "$book" --script "$script" --stop 010 --digits 2 \
    --out page.html --force >/dev/null)
same elsewhere/page.html before.html

echo "report: what is refused"
makes stop.book ' LDI $020, 9
 LDI $021, 1
 DW $F800'
printf 'cycle*9' >nine.script
reports 1 stop.book --script nine.script --stop 001
says err 'desk: the run: refused by 6, value 2: the cycle would execute the word at $002, which is no instruction'
says err "desk: the level after 1 event: refused by 9, value 0: the level's high digit is above 7"
says out 'page.html: a report of'
page_says 'stop.book'
page_says 'the level&#39;s high digit is above 7'
printf 'high $021 low $020 ground 2' >small.level
makes turned.book ' LDI $020, 9
 LDI $021, 1
 DW $F800'
printf 'high $020 low $021 ground 2' >small.level
reports 1 turned.book --script nine.script
says err "the level's low digit is above 7"
reports 1 "$book" --script "$script" --options 9 --stop 010
says err 'desk: a fresh machine: refused by 12, value 9: options are 0 to 7'
page_says 'None of 29608 events was done. A fresh machine: refused by 12, value 9'
printf 'cycle $04 cycle' >unknown.script
reports 1 "$book" --script unknown.script --stop 010
says err 'desk: the run: refused by 5, value 1'
page_says 'None of 3 events was done. The run: refused by 5, value 1'
{ printf '\020'; tail -c +2 ready.state; } >cell.state
reports 1 "$book" --script below.script --state cell.state
says err 'desk: the run: refused by 3, value 0'
says err 'desk: the picture after 0 events: refused by 3, value 0'
{ head -c 1024 ready.state; printf '\020'; tail -c 44 ready.state; } >record.state
reports 1 "$book" --script below.script --state record.state
says err 'desk: the run: refused by 4, value 0'
head -c 100 "$book" >short.book
ends 1 report short.book --out never.html
says err 'short.book: refused by 10'
absent never.html
# A refused state in the middle: digits above 7 at some stops only.
makes climbing.book 'here: ADIM $020, 1
 JMP here'
printf 'cycle*60' >sixty.script
reports 1 climbing.book --script sixty.script --stop 000
says err 'desk: the level after 16 events: refused by 9, value 0'
page_says 'Met 16 times, first after 16 events.'
no_parts

echo "report: many stops and changes"
# The level changes at every stop, so none is like the one before; and more often than a page has rows.
makes busy.book ' LDI $007, 4
here: ADIM $021, 1
 ANDIM $021, 7
 LDA $021
 STA $300
 JMP here'
printf 'cycle*1001' >thousand.script
reports 0 busy.book --script thousand.script --stop 001
page_says 'Not drawn: 163 more stops before the end. A page has 40 panels at most.'
page_says 'Not shown: '
# Waiting at the stop: all of them alike.
makes waiting.book ' LDI $020, 3
here: NOP
 JMP here'
reports 0 waiting.book --script thousand.script --stop 001
page_says 'The same at 500 more stops, up to the one after 1001 events.'
makes tight.book 'here: JMP here'
reports 0 tight.book --script thousand.script --stop 000
page_says 'The same at 1000 more stops'
# As many as a page has, and one more; alike with the last that is drawn.
for cycles in 190 191 192 195 196 198 200 201; do
    printf 'cycle*%s' $cycles >some.script
    reports 0 busy.book --script some.script --stop 001
done

echo "report: programs"
# Targets among NOPs, in both halves; words that are no instructions; a first and a last word.
makes jumps.book ' JMP $0A5
 BNZ $123
 CALL $7FF
 ORG $0A5
 NOP
 ORG $7FE
 BC $001
 ORG $800
 CALL $801
 BA0 $FFE
 JMP $400
 DW $CB80
 ORG $FFF
 LDI $020, 1'
reports 0 jumps.book --script thousand.script --stop 0A5
reports 0 jumps.book
# Any word, from a generator; every cell of every kind has writers, and those through $00F.
bytes_of() {
    awk -v seed="$1" 'BEGIN { for (at = 0; at < 8192; at++) {
        seed = (seed * 16807) % 2147483647
        printf "\\%03o", int(seed / 4096) % 256 } }'
}
for seed in 6754 67; do
    # shellcheck disable=SC2059
    printf "$(bytes_of $seed)" >drawn.bin
    size_is drawn.bin 8192
    ends 0 book make drawn.book drawn.bin small.wiring small.level --force
    ends_with=$("$desk" run drawn.book nine.script >/dev/null 2>&1; echo $?)
    reports "$ends_with" drawn.book --script nine.script
done
head -c 8192 /dev/zero | tr '\000' '\377' >nops.bin
ends 0 book make nops.book nops.bin small.wiring small.level
reports 0 nops.book --script thousand.script --stop 800
page_says '801–FFF: NOP, 2047 words'

echo "report: panels"
# 240 elements, as 34 digits and 2 lamps, and as lamps.
awk 'BEGIN { for (at = 0; at < 240; at++) printf "$%03X.%d\n", 768 + int(at / 4), at % 4 }' >large.wiring
printf ' LDI $007, 4\n LDI $020, 5\n STA $300\n STA $301\n LDI $020, 10\n STA $33B\n STA $320\n' >large.asm
printf 'here: JMP here\n' >>large.asm
ends 0 book make large.book large.asm large.wiring small.level
for words in '--digits 34' '--digits 9 --columns 7' '--columns 240' '--columns 1' ''; do
    # shellcheck disable=SC2086
    ends 1 report large.book --script nine.script --stop 007 $words --out page.html --force
    # shellcheck disable=SC2086
    judged page.html large.book --script nine.script --stop 007 $words
done
printf '$300.0' >one.wiring
ends 0 book make one.book large.asm one.wiring small.level
reports 1 one.book --script nine.script

echo "report: names that are not plain"
nasty=$(printf '<b>&"\047\\ \001\033[31m\177\200\377\302\205\342\200\256\303\251')
shown='<b>&"'"'"'\ \x01\x1B[31m\x7F\x80\xFF\xC2\x85\xE2\x80\xAE'$(printf '\303\251')
cp "$book" "$nasty.book"
cp below.script "$nasty.script"
ends 0 report "$nasty.book" --script "$nasty.script" --state ready.state --title "$nasty" --out "$nasty.html"
judged "$nasty.html" "$book" --script below.script --state ready.state --shown-title "$shown" \
    --shown-book "$shown.book" --shown-script "$shown.script"
grep -qF '<b>&"' "$nasty.html" && wrong "a name is not escaped" || ok
cp ready.state "$nasty.state"
ends 0 report "$book" --script below.script --state "$nasty.state" --out page.html --force
grep -qF '<b>&"' page.html && wrong "a state's name is not escaped" || ok
page_says '&lt;b&gt;&amp;'
ends 0 report "$nasty.book" --title '' --out page.html --force
judged page.html "$book" --shown-book "$shown.book"
for title in ' ' '</title><script>alert(1)</script>' ']]>' '&lt;' '-->' '<!--' "$(printf '\360\237\233\227 \316\251')" \
    '{}' '%s%n' "$(printf 'two\nlines')"; do
    ends 0 report "$book" --title "$title" --out page.html --force
    judged page.html "$book" \
        --shown-title "$(printf '%s' "$title" | awk 'NR > 1 { printf "\\x0A" } { printf "%s", $0 }')"
done
# Bytes that begin no character, one by one, and the longest forms of short codes.
for bytes in '\300\200' '\355\240\200' '\364\220\200\200' '\370\210\200\200\200' '\340\200\257' '\303' '\342\202' \
    '\357\277\277' '\357\273\277'; do
    # shellcheck disable=SC2059
    ends 0 report "$book" --title "$(printf "a${bytes}z")" --out page.html --force
    judged page.html "$book" --shown-title "a$(printf '%s' "$bytes" | tr 'a-f' 'A-F' | awk '{
        count = split($0, octal, "\\"); for (at = 2; at <= count; at++)
            printf "\\x%02X", 64 * substr(octal[at], 1, 1) + 8 * substr(octal[at], 2, 1) + substr(octal[at], 3, 1) }')z"
done

echo "report: how it was made"
# The command line that the page tells is, to a shell, the words that it was made by.
made_by() {
    "$checker" --command "$1" >command
    shift
    printf '%s\0' desk report "$@" >words
    bash -c 'eval "set -- $(cat command)"; printf "%s\0" "$@"' >got
    said="the command line of $*"
    same got words
}
made_by example.html "$book" --script "$script" --stop 010 --digits 2 --out page.html --force
ends 0 report "$nasty.book" --title "$nasty" --out page.html --force
made_by page.html "$nasty.book" --title "$nasty" --out page.html --force
for word in '' "it's" 'a b' '$HOME' '`date`' '*' 'a\b' '"' '!!' '~' '#' "$(printf 'tab\there')" \
    "$(printf '\\x41\377\047')"; do
    ends 0 report "$book" --title "$word" --out page.html --force
    made_by page.html "$book" --title "$word" --out page.html --force
done
said="the commit in the page"
commit=$("$desk" --version | sed 's/.*, commit //')
if grep -qF "<code class=\"commit\">$commit</code>" example.html; then ok; else wrong "$said is not $commit"; fi
if command -v git >/dev/null && commit_there=$(git -C "$top" rev-parse HEAD 2>/dev/null); then
    case $commit in "$commit_there"*) ok ;; *) wrong "$said: $commit, not $commit_there" ;; esac
fi
said="the note on writers through the pointer"
if grep -qF 'Such an instruction names <code>$00F</code>' example.html; then ok; else wrong "$said"; fi
# Its files are those that cksum tells the same of, from an empty one to a long one.
: >none.script
head -c 70000 /dev/zero >long.script
"$desk" fresh odd.state --options 6 >/dev/null || wrong "a state"
for from in none.script long.script "$script"; do
    raw=
    [ "$from" = "$script" ] || raw=--raw-script
    # shellcheck disable=SC2086
    ends 0 report "$book" --script "$from" $raw --state odd.state --out page.html --force
    for file in "$book" "$from" odd.state; do
        sums=$(cksum "$file" | awk '{ printf "<td class=\"number\">%s</td><td class=\"number\">%s</td>", $2, $1 }')
        if grep -qF "<code>$file</code></td>$sums" page.html; then ok; else wrong "$said: the checksum of $file"; fi
    done
done
# What the page points at in the repository is there.
grep -oE '<code>(crates|docs|desk)/[^<*]*</code>' example.html | sed 's/<[^>]*>//g' | sort -u >paths
[ "$(wc -l <paths)" -gt 15 ] && ok || wrong "the page points at few files"
while read -r path; do
    if [ -e "$top/$path" ]; then ok; else wrong "the page points at $path"; fi
done <paths
# Which commit a tree is of.
if command -v git >/dev/null; then
    mkdir -p tree/inner
    commit_is() {
        said="the commit of $1"
        got=$(cd "$1" && "$top/desk/commit.sh")
        if [ "$got" = "$2" ]; then ok; else wrong "$said: '$got', not '$2'"; fi
    }
    commit_is tree unknown
    git -C tree init -q
    commit_is tree unknown
    echo one >tree/inner/file
    git -C tree add .
    git -C tree -c user.name=desk -c user.email=desk@localhost commit -qm one
    commit=$(git -C tree rev-parse HEAD)
    commit_is tree "$commit"
    commit_is tree/inner unknown
    echo two >>tree/inner/file
    commit_is tree "$commit with changes that no commit has"
    git -C tree checkout -q -- .
    : >tree/new
    commit_is tree "$commit with changes that no commit has"
fi

echo "report: what the checker finds"
# found EXPRESSION WORDS...: the example's page, changed so, is judged wrong.
found() {
    sed -E "$1" example.html >broken.html
    said="the page changed by $1"
    cmp -s broken.html example.html && wrong "$said: nothing is changed"
    "$checker" broken.html "$book" --script "$script" --stop 010 --digits 2 >verdict 2>&1
    status=$?
    if [ $status = 1 ] && grep -q '^WRONG' verdict; then
        ok
    else
        wrong "$said: not found, status $status"
        cat verdict
    fi
}
found 's/data-element="1" data-lit="1"/data-element="1" data-lit="0"/'
found 's/class="lit" data-element="8"/class="dark" data-element="8"/'
found 's/element 8, cell \$302 bit 1: lit/element 8, cell $302 bit 1: dark/'
found '0,/<path class="rays"[^>]*>/s///'
found '0,/54,8 59,13/s//5,8 9,13/'
found 's/of 16 elements lit: 1,/of 16 elements lit: 2,/'
found '0,/data-cell="303"/s//data-cell="304"/'
found 's/href="#a027"/href="#a028"/'
found 's/href="#panel-3"/href="#panel-9"/'
found 's/ id="a027"//'
found 's/id="a027"/id="a028"/'
found 's/<h1>Lift report/<h1>Lift <report/'
found 's/<h1>Lift report/<h1>Lift \& report/'
found 's/<h1>Lift report/<h1>Lift \&nbsp;report/'
found 's/<\/h1>/<\/h2>/'
found 's/<html /<html lang="en" /'
found 's/lang="en"/lang=en/'
found 's/<body>/<body><img src="x.png"\/>/'
found 's/<body>/<body><script>1<\/script>/'
found 's/<body>/<body onload="x">/'
found 's/href="#listing"/href="https:\/\/example.org\/"/'
found 's/<style>/<style>@import "x.css";/'
found 's/body\{margin/body{background:url(x.png);margin/'
found "s/<h1>/<h1>$(printf '\001')/"
found "s/<h1>/<h1>$(printf '\377')/"
found 's/<th scope="row">Program/<th>Program/'
found 's/<svg xmlns="[^"]*" role="img"/<svg/'
found '/<th scope="row"><a class="line" href="#a027">/d'
found '/<th scope="row"><a class="line" href="#a04A">/d'
found 's/through <code>\$00F<\/code> \xE2\x80\xA0/names the cell/'
found 's/<b>2 times<\/b>/never/'
found 's/>23057</>23058</'
found 's/10 \xC3\x97 1 \+ 0 = 10/10 \xC3\x97 1 + 0 = 11/'
found 's/10 \xE2\x88\x92 2 = <b>8/10 \xE2\x88\x92 2 = <b>6/'
found 's/8 \xC3\x97 1 \+ 0 = 8/10 \xC3\x97 1 + 0 = 10/'
found 's/Level 6</Level 8</'
found 's/The readings differ/The readings agree/'
found 's/<strong>differ<\/strong>/agree/'
found 's/data-events="281"/data-events="282"/'
found '/<li id="a010">/d'
found 's/027 3C20 STA 020<\/code>/027 3C20 STA 021<\/code>/'
found 's/NOP, 247 words/NOP, 248 words/'
found '/<tr data-cell="022">/d'
found 's/<tr data-cell="022">(.*) <a href="#a061">\$061<\/a>/<tr data-cell="022">\1/'
found 's/3988 NOP/3989 NOP/'
found 's/None: the library refused nothing/Some: the library refused/'
found 's/ <span class="mark">high<\/span><\/li>/<\/li>/'
found '$s/$/<p>more<\/p>/'

echo "$passed passed, $failed failed"
[ "$failed" = 0 ]
