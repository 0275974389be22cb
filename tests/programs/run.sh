#!/bin/sh
# Runs what a user runs: the program over stored answers, the text tool, the example programs and the C header.
# Needs crates/planner/out/planner (rt run there, or rt ci) and crates/beyunlak/out/libbeyunlak.a (rt lib there);
# $PLANNER and $LIBRARY name others. The last line is 'N passed, M failed'.
set -u
cd "$(dirname "$0")/../.." || exit 2
planner=${PLANNER:-crates/planner/out/planner}
library=${LIBRARY:-crates/beyunlak/out/libbeyunlak.a}
here=tests/programs
work=$(mktemp -d) || exit 2
trap 'rm -rf "$work"' EXIT
passed=0
failed=0

pass() { passed=$((passed + 1)); }
fail() { failed=$((failed + 1)); printf 'FAILED %s\n' "$1"; }
good() { if [ "$1" -eq 0 ]; then pass; else fail "$2"; fi; }

# same NAME WANTED GOT: two files
same() { if cmp -s "$2" "$3"; then pass; else fail "$1"; diff "$2" "$3" | head -n 5; fi; }

# bytes HEX [COUNT]: the bytes, whatever spaces stand between, as often as said
bytes() { python3 -c 'import sys; sys.stdout.buffer.write(bytes.fromhex(sys.argv[1]) * int(sys.argv[2]))' "$1" "${2:-1}"; }

# prints NAME WANTED [WORD]: the program on $work/ticket
prints() {
    printf '%s\n' "$2" | tr '/' '\n' >"$work/wanted"
    "$planner" ${3:+"$3"} <"$work/ticket" >"$work/got" 2>"$work/errors"
    good $? "$1: exit status"
    same "$1" "$work/wanted" "$work/got"
    if [ -s "$work/errors" ]; then fail "$1: wrote to standard error"; else pass; fi
}

# plans NAME WANTED [LATEST]: the program on $work/ticket, without and with the word `latest`
plans() {
    prints "$1" "$2"
    prints "$1, latest" "${3:-$2}" latest
}

# ---- the program

# the tickets of cases.txt become files, and their names and answers a list
python3 - "$here/cases.txt" "$work" <<'CASES' >"$work/list"
import sys
rows = [line.rstrip("\n").split("|") for line in open(sys.argv[1], encoding="ascii") if not line.startswith("#")]
for number, (name, bytes_, *answers) in enumerate(rows):
    with open(f"{sys.argv[2]}/{number}", "wb") as ticket:
        ticket.write(bytes.fromhex(bytes_))
    print(number, name.strip(), *(answer.strip() for answer in answers), sep="|")
CASES
while IFS='|' read -r number name wanted latest; do
    mv "$work/$number" "$work/ticket"
    plans "$name" "$wanted" "$latest"
done <"$work/list"

while IFS='|' read -r name wanted latest; do
    cp "examples/tickets/${name% }.ticket" "$work/ticket"
    wanted=${wanted# }
    plans "examples/tickets/${name% }" "${wanted% }" "${latest# }"
done <<'CASES'
p1 | plan 2 18/1 0 5 11/2 2 9 9/30 0 11 0 0 | plan 2 18/1 0 9 15/2 2 13 13/30 0 11 0 0
p4 | plan 3 5/1 3 0 5/2 3 0 0/3 3 0 0/0 0 0 5 0 | plan 3 5/1 3 5 5/2 3 5 5/3 3 0 5/0 0 0 5 0
p6 | plan 2 0/1 3 1 1/2 3 0 0/0 0 0 0 0 | plan 2 0/1 3 10 10/2 3 9 9/0 0 0 0 0
p6-impossible | refused 9
p7 | plan 1 0/1 3 10 10/0 0 0 0 0
p7-impossible | refused 9
p8 | plan 0 0/0 0 0 0 0
p9 | refused 1
p10 | plan 2 10/1 3 0 5/2 3 0 5/0 0 0 10 0
session | plan 9 1500/1 3 30 200/2 1 15 535/3 2 250 490/4 0 540 590/5 4 630 630/6 1 645 645/7 0 650 790/8 4 850 850/9 2 850 850/570 710 430 170 0 | plan 9 1500/1 3 30 200/2 1 15 535/3 2 300 490/4 0 540 650/5 4 690 690/6 1 705 705/7 0 710 790/8 4 850 850/9 2 850 900/570 710 430 170 0
CASES

head -c 1048576 /dev/zero >"$work/ticket"
plans 'a megabyte of zeros' 'refused 8'

# the longest ticket, 1,584 bytes, with the longest first line; and one byte more
{
    bytes '40420f00 2800'
    bytes 00 40
    bytes 0001
    bytes 000140420f00 256
} >"$work/ticket"
longest='plan 40 120000000'
i=1; while [ $i -le 40 ]; do longest="$longest/$i 0 0 1000000"; i=$((i + 1)); done
plans 'the longest ticket' "$longest/120000000 0 0 0 0"
printf x >>"$work/ticket"
plans 'the longest ticket and one byte more' 'refused 8'

# ten events of each device but the database, with the longest line of part totals
{
    bytes '40420f00 2800'
    for device in 00 01 02 03; do bytes $device 10; done
    bytes 0000
} >"$work/ticket"
longest='plan 40 60000000'
i=1; while [ $i -le 40 ]; do longest="$longest/$i $(((i - 1) / 10)) 0 1000000"; i=$((i + 1)); done
plans 'the longest line of part totals' "$longest/30000000 10000000 10000000 10000000 0"

# a gigabyte in 64 megabytes of memory: the program answers after 1,585 bytes, and the writer is not held up
printf 'refused 8\n' >"$work/wanted"
(ulimit -v 65536; head -c 1073741824 /dev/zero 2>/dev/null | "$planner") >"$work/got"
same 'a gigabyte of zeros' "$work/wanted" "$work/got"

# bytes that come one by one
printf 'plan 2 18\n1 0 5 11\n2 2 9 9\n30 0 11 0 0\n' >"$work/wanted"
dd if=examples/tickets/p1.ticket bs=1 2>/dev/null | "$planner" >"$work/got"
same 'P1, a byte at a time' "$work/wanted" "$work/got"

# no input at all
printf 'refused 1\n' >"$work/wanted"
"$planner" <&- >"$work/got"
same 'closed standard input' "$work/wanted" "$work/got"
"$planner" latest <&- >"$work/got"
same 'closed standard input, latest' "$work/wanted" "$work/got"

# asked WORD..: words that the program does not know: a line on standard error and nothing on standard output
asked() {
    printf 'usage: planner [latest] <ticket\n' >"$work/wanted"
    "$planner" "$@" <examples/tickets/p1.ticket >"$work/got" 2>"$work/errors"
    same "asked '$*'" "$work/wanted" "$work/errors"
    if [ -s "$work/got" ]; then fail "asked '$*': wrote to standard output"; else pass; fi
}
for word in earliest Latest late latest1 ' latest' -h ''; do asked "$word"; done
asked latest latest
asked latest ''
asked '' latest

# ---- the text tool

for text in examples/tickets/*.txt; do
    ticket=${text%.txt}.ticket
    tools/ticket encode "$text" "$work/made"
    same "encode $text" "$ticket" "$work/made"
    tools/ticket show "$ticket" >"$work/shown"
    tools/ticket encode "$work/shown" >"$work/again"
    same "show $ticket" "$ticket" "$work/again"
done

# refuses TEXT LINE REASON: the text, in which / stands for a line end, is refused at the line, and nothing is written
refuses() {
    printf '%s\n' "$1" | tr '/' '\n' >"$work/text"
    rm -f "$work/made"
    tools/ticket encode "$work/text" "$work/made" >"$work/got" 2>"$work/errors"
    status=$?
    if [ $status -eq 1 ] && [ ! -e "$work/made" ] && [ ! -s "$work/got" ] \
        && grep -q "^$work/text:$2: .*$3" "$work/errors"; then pass; else fail "encode refuses '$1'"; cat "$work/errors"; fi
}
refuses 'horizon 5/event a stage/rule a to b: 3' 3 "no event 'b'"
refuses 'horizon 5/event a table' 2 "'table' is none of"
refuses 'horizon 1000001' 1 '0 to 1000000'
refuses 'horizon 5/horizon 5' 2 'second horizon'
refuses 'event a stage' 2 'no horizon'
refuses 'horizon 5/event a stage/event a lamps' 3 'taken'
refuses 'horizon 5/event a stage/rule a to a: 3' 3 'same'
refuses 'horizon 5/event a stage/rule start to a: -1000001' 3 'bound is -1000001'
refuses 'horizon 5/event a stage/between start and a: ..' 3 'neither'
refuses 'horizon 5/event a stage/between start and a: 4..3' 3 'low end'
refuses 'horizon 5/event a stage/rule start to a 3' 3 "form 'rule FROM to TO: TIME'"
refuses 'horizon 5s5' 1 "form 'horizon TIME'"
refuses 'horizons 5' 1 "'horizons' is none of"
refuses "horizon 5$(i=0; while [ $i -le 40 ]; do printf '/event e%d stage' $i; i=$((i + 1)); done)" 42 'more than 40 events'
refuses "horizon 5/event a stage$(i=0; while [ $i -le 256 ]; do printf '/rule start to a: 1'; i=$((i + 1)); done)" 259 'more than 256 rules'

bytes '05000000 0100 05 0000' | tools/ticket show >"$work/got" 2>"$work/errors"
if [ $? -eq 1 ] && grep -q '^refused 4: .*(byte 6)' "$work/errors" && [ ! -s "$work/got" ]; then pass; else fail 'show refuses'; fi
"$planner" <examples/tickets/p1.ticket | tools/ticket explain >"$work/got"
p1_alone='each device alone: camera 30, filter-wheel 0, lamps 11, stage 0, database 0'
printf 'accepted: 2 events, total 18\nevent 1, camera: any tick from 5 to 11\nevent 2, lamps: any tick from 9 to 9\n%s\n' "$p1_alone" >"$work/wanted"
same 'explain a plan' "$work/wanted" "$work/got"
"$planner" latest <examples/tickets/p1.ticket | tools/ticket explain >"$work/got"
printf 'accepted: 2 events, total 18\nevent 1, camera: any tick from 9 to 15\nevent 2, lamps: any tick from 13 to 13\n%s\n' "$p1_alone" >"$work/wanted"
same 'explain a latest plan' "$work/wanted" "$work/got"
"$planner" <examples/tickets/p9.ticket | tools/ticket explain >"$work/got" 2>"$work/errors"
if [ $? -eq 1 ] && grep -q '^refused 1: the bytes end inside a field' "$work/errors"; then pass; else fail 'explain a refusal'; fi
printf 'plan 0 0\n0 0 0 0 0\n' | tools/ticket explain >"$work/got"
printf 'accepted: 0 events, total 0\neach device alone: camera 0, filter-wheel 0, lamps 0, stage 0, database 0\n' >"$work/wanted"
same 'explain a plan of no events' "$work/wanted" "$work/got"
# no_answer LINES: the lines are no plan with the totals of its parts; / stands for a line end
no_answer() {
    printf '%s\n' "$1" | tr '/' '\n' | tools/ticket explain >"$work/got" 2>"$work/errors"
    good $(($? != 1)) "explain refuses '$1': exit status"
    echo 'this is no answer of the program' >"$work/wanted"
    same "explain refuses '$1'" "$work/wanted" "$work/errors"
    if [ -s "$work/got" ]; then fail "explain refuses '$1': wrote to standard output"; else pass; fi
}
no_answer ''
no_answer 'plan 0 0'
no_answer 'plan 2 18/1 0 5 11/2 2 9 9'
no_answer 'plan 2 18/1 0 5 11/2 2 9 9/30 0 11 0'
no_answer 'plan 2 18/1 0 5 11/2 2 9 9/30 0 11 0 0 0'
no_answer 'plan 2 18/1 0 5 11/2 2 9 9/30 0 eleven 0 0'
no_answer 'plan 2 18/30 0 11 0 0/1 0 5 11/2 2 9 9'
no_answer 'plan 2 18/1 0 5 11/2 2 9 9/30 0 11 0 0/30 0 11 0 0'

# tells COMMAND NAME TEXT LINES WANTED STATUS: a program's lines with names, or why they are refused; / stands for a line end
tells() {
    printf '%s\n' "$4" | tr '/' '\n' | tools/ticket "$1" "$3" >"$work/got" 2>&1
    good $(($? != $6)) "$1, $2: exit status"
    printf '%s\n' "$5" | tr '/' '\n' >"$work/wanted"
    same "$1, $2" "$work/wanted" "$work/got"
}
# untold COMMAND NAME TEXT LINES REASON: a program's lines are refused for the reason, and nothing is printed
untold() {
    printf '%s\n' "$4" | tr '/' '\n' | tools/ticket "$1" "$3" >"$work/got" 2>"$work/errors"
    good $(($? != 1)) "$1 refuses $2: exit status"
    echo "$5" >"$work/wanted"
    same "$1 refuses $2" "$work/wanted" "$work/errors"
    if [ -s "$work/got" ]; then fail "$1 refuses $2: wrote to standard output"; else pass; fi
}
p1=examples/tickets/p1.txt
p4=examples/tickets/p4.txt
p1_told='        start shutter flash/start       0      15    19/shutter    -5       0     4/flash      -8       2     0'
no_table='this is no table of 3 points'
tells table 'P1' $p1 '0 15 19/-5 0 4/-8 2 0' "$p1_told" 0
tells table 'no events' examples/tickets/p8.txt '0' '      start/start     0' 0
tells table 'refused' $p1 'refused 9' 'refused 9: no times keep all rules' 1
tells table 'a row missing' $p1 '0 15 19/-5 0 4' "$no_table" 1
tells table 'a word in it' $p1 '0 15 19/-5 x 4/-8 2 0' "$no_table" 1
tells table 'no path' $p1 '0 15 19/-5 0 4/-8 none 0' "$no_table" 1

# the working tables before the first stop and after each, worked by hand from the header
p1_first='0 15 20/-5 0 4/-8 2 0'
p1_stops="stops 0/$p1_first/stops 1/$p1_first/stops 2/0 15 19/-5 0 4/-8 2 0/stops 3/0 15 19/-5 0 4/-8 2 0"
p1_begun="$(echo "$p1_told" | sed 's/19/20/')"
p1_stops_told="before the first stop/$p1_begun/after flash/$p1_begun/after shutter/$p1_told/after start/$p1_told"
p4_names='      start move1 move2 move3/start     0     5     5     5'
p4_first='0 5 5 5/0 0 0 none/0 none 0 0/0 none none 0'
p4_later='0 5 5 5/0 0 0 0/0 none 0 0/0 none none 0'
p4_stops="stops 0/$p4_first/stops 1/$p4_first/stops 2/$p4_later/stops 3/$p4_later/stops 4/0 5 5 5/0 0 0 0/0 5 0 0/0 5 5 0"
p4_begun="$p4_names/move1     0     0     0  none/move2     0  none     0     0/move3     0  none  none     0"
p4_joined="$p4_names/move1     0     0     0     0/move2     0  none     0     0/move3     0  none  none     0"
p4_told="$p4_names/move1     0     0     0     0/move2     0     5     0     0/move3     0     5     5     0"
p4_ending="after move1/$p4_joined/after start/$p4_told"
p4_stops_told="before the first stop/$p4_begun/after move3/$p4_begun/after move2/$p4_joined/$p4_ending"
no_stops='these are not the tables of 3 points before the first stop and after each'
tells stops 'P1' $p1 "$p1_stops" "$p1_stops_told" 0
tells stops 'P4' $p4 "$p4_stops" "$p4_stops_told" 0
tells stops 'no events' examples/tickets/p8.txt 'stops 0/0/stops 1/0' 'before the first stop/      start/start     0/after start/      start/start     0' 0
tells stops 'refused' $p1 'refused 9' 'refused 9: no times keep all rules' 1
tells stops 'nothing' $p1 '' "$no_stops" 1
tells stops 'a table' $p1 '0 15 19/-5 0 4/-8 2 0' "$no_stops" 1
tells stops 'a table missing' $p1 "${p1_stops%/stops 3/*}" "$no_stops" 1
tells stops 'a row missing' $p1 "${p1_stops%/*}" "$no_stops" 1
tells stops 'a row too many' $p1 "$p1_stops/-8 2 0" "$no_stops" 1
tells stops 'a table too many' $p1 "$p1_stops/stops 4/$p1_first" "$no_stops" 1
tells stops 'a number missing' $p1 "${p1_stops% *}" "$no_stops" 1
tells stops 'a word in it' $p1 "$(echo "$p1_stops" | sed 's/20/nine/')" "$no_stops" 1
tells stops 'stops in another order' $p1 "$(echo "$p1_stops" | sed 's/stops 1/stops 2/')" "$no_stops" 1
tells stops 'tables of another ticket' $p1 "$p4_stops" "$no_stops" 1
# a column is as wide in all tables
tells stops 'wide numbers' examples/tickets/p7.txt 'stops 0/0 1/2 0/stops 1/0 1000000/-1000000 0/stops 2/0 none/-1 0' \
    'before the first stop/         start    last/start        0       1/last         2       0/after last/         start    last/start        0 1000000/last  -1000000       0/after start/         start    last/start        0    none/last        -1       0' 0

# shown NAME TAIL WANTED: the last lines for P1's ticket with these bytes after it; / stands for a line end
shown() {
    { cat examples/tickets/p1.ticket; bytes "$2"; } | tools/ticket show 2>&1 | tail -n 9 >"$work/got"
    printf '%s\n' "$3" | tr '/' '\n' >"$work/wanted"
    same "show a record, $1" "$work/wanted" "$work/got"
}
# counted COUNT..: how the five counts are shown
counted() { printf '/# accepted commitments of each device/#   camera       %s/#   filter-wheel %s/#   lamps        %s/#   stage        %s/#   database     %s' "$@"; }
p1_free='0200 00 05000000 0b000000 00 09000000 09000000'
p1_one='0200 01 0a000000 0a000000 00 08000000 0e000000'
p1_both='0200 01 0a000000 0a000000 01 0a000000 0c000000'
free_shown='# window e1 5..11 free/# window e2 9..9 free/# committed events 0, total 18'
one_shown='# window e1 10..10 committed/# window e2 8..14 free/# committed events 1, total 6'
both_shown='# window e1 10..10 committed/# window e2 10..12 committed/# committed events 2, total 2'
shown 'a plan' "$p1_free 0500 0000 0000 0000 0000 0000" "$free_shown$(counted 0 0 0 0 0)"
shown 'no flags, counts from elsewhere' "$p1_free 0500 0100 0200 0300 0400 0500" "$free_shown$(counted 1 2 3 4 5)"
shown 'one flag, its count 1' "$p1_one 0500 0100 0000 0000 0000 0000" "$one_shown$(counted 1 0 0 0 0)"
shown 'one flag, its count 256' "$p1_one 0500 0001 0000 0c00 0000 0000" "$one_shown$(counted 256 '  0' ' 12' '  0' '  0')"
shown 'one flag, counts up to 65,535' "$p1_one 0500 ffff feff 0080 ffff ff00" "$one_shown$(counted 65535 65534 32768 65535 '  255')"
shown 'two flags, counts 1' "$p1_both 0500 0100 0000 0100 0000 0000" "$both_shown$(counted 1 0 1 0 0)"
shown 'two flags, counts 2 and 1' "$p1_both 0500 0200 0000 0100 0000 0000" "$both_shown$(counted 2 0 1 0 0)"
no_record="refused 14: the record's number of events or devices, a flag, a window or a device's count breaks the layout (byte"
cut='refused 1: the bytes end inside a field (byte'
shown 'another number of events' '0300 00 05000000 0a000000 00 08000000 09000000 0500 0000 0000 0000 0000 0000' "$no_record 46)"
shown 'a flag of 2' '0200 02 05000000 0a000000 00 08000000 09000000 0500 0000 0000 0000 0000 0000' "$no_record 48)"
shown 'one flag, its count 0' "$p1_one 0500 0000 0900 0900 0900 0900" "$no_record 68)"
shown 'one flag, its count 0, the next cut off' "$p1_one 0500 0000 01" "$no_record 68)"
shown 'one flag, its count 0, a byte more' "$p1_one 0500 0000 0000 0000 0000 0000 00" "$no_record 68)"
shown 'two flags, the first count 0' "$p1_both 0500 0000 0000 0200 0000 0000" "$no_record 68)"
shown 'two flags, the second count 0' "$p1_both 0500 0200 0000 0000 0000 0000" "$no_record 72)"
shown '0 devices' "$p1_free 0000 0000 0000 0000 0000 0000" "$no_record 66)"
shown '4 devices' "$p1_free 0400 0000 0000 0000 0000" "$no_record 66)"
shown '6 devices' "$p1_free 0600 0000 0000 0000 0000 0000 0000" "$no_record 66)"
shown '261 devices' "$p1_free 0501 0000 0000 0000 0000 0000" "$no_record 66)"
shown 'a byte more' "$p1_one 0500 0200 0000 0000 0000 0000 00" 'refused 8: bytes follow the end (byte 78)'
shown 'no number of devices' "$p1_one" "$cut 66)"
shown 'the number of devices cut' "$p1_one 05" "$cut 66)"
shown 'the first count cut' "$p1_one 0500 01" "$cut 68)"
shown 'no second count' "$p1_one 0500 0100" "$cut 70)"
shown 'a byte less' "$p1_one 0500 0100 0000 0000 0000 00" "$cut 76)"
# records of the former layout: its one number is taken for the number of devices
former='; the bytes end as in the former layout, with one number for all devices)'
shown 'the former layout, a plan' "$p1_free 0000" "$no_record 66$former"
shown 'the former layout, two commitments' "$p1_one 0200" "$no_record 66$former"
shown 'the former layout, 261 commitments' "$p1_one 0501" "$no_record 66$former"
shown 'the former layout, five commitments' "$p1_one 0500" "$cut 68$former"
bytes '00000000 0000 0000 0000 0000' | tools/ticket show >"$work/got" 2>&1
good $(($? != 1)) 'show a record of the former layout without events: exit status'
echo "$no_record 10$former" >"$work/wanted"
same 'show a record of the former layout without events' "$work/wanted" "$work/got"

# viewed NAME DEVICE TAIL WANTED: what a device sees of the record of P1's ticket and these bytes; / stands for a line end
viewed() {
    { cat examples/tickets/p1.ticket; bytes "$3"; } >"$work/record"
    printf '%s\n' "$4" | tr '/' '\n' >"$work/wanted"
    tools/ticket show "$work/record" --as "$2" >"$work/got" 2>"$work/errors"
    good $? "show --as $2, $1: exit status"
    same "show --as $2, $1" "$work/wanted" "$work/got"
    if [ -s "$work/errors" ]; then fail "show --as $2, $1: wrote to standard error"; else pass; fi
    tools/ticket show --as "$2" "$work/record" >"$work/got"
    same "show --as $2 before the record, $1" "$work/wanted" "$work/got"
    tools/ticket show --as "$2" <"$work/record" >"$work/got"
    same "show --as $2 from standard input, $1" "$work/wanted" "$work/got"
    tools/ticket show - --as "$2" <"$work/record" >"$work/got"
    same "show - --as $2, $1" "$work/wanted" "$work/got"
}
# own DEVICE COUNT: how a device's own count is shown
own() { printf '/# accepted commitments of %s: %s' "$@"; }
p1_record="$p1_free 0500 0100 0200 0300 0400 0500"
viewed 'a plan, counts from elsewhere' camera "$p1_record" "# view of camera, 1 event/# window e1 5..11 free$(own camera 1)"
viewed 'a plan, counts from elsewhere' filter-wheel "$p1_record" "# view of filter-wheel, no events$(own filter-wheel 2)"
viewed 'a plan, counts from elsewhere' lamps "$p1_record" "# view of lamps, 1 event/# window e2 9..9 free$(own lamps 3)"
viewed 'a plan, counts from elsewhere' stage "$p1_record" "# view of stage, no events$(own stage 4)"
viewed 'a plan, counts from elsewhere' database "$p1_record" "# view of database, 2 events/# window e1 5..11 free/# window e2 9..9 free$(own database 5)"
viewed 'by number' 0 "$p1_record" "# view of camera, 1 event/# window e1 5..11 free$(own camera 1)"
viewed 'by number' 3 "$p1_record" "# view of stage, no events$(own stage 4)"
viewed 'by number' 4 "$p1_record" "# view of database, 2 events/# window e1 5..11 free/# window e2 9..9 free$(own database 5)"
p1_record="$p1_one 0500 ffff feff 0080 ffff ff00"
viewed 'one committed' camera "$p1_record" "# view of camera, 1 event/# window e1 10..10 committed$(own camera 65535)"
viewed 'one committed' lamps "$p1_record" "# view of lamps, 1 event/# window e2 8..14 free$(own lamps 32768)"
p1_record="$p1_both 0500 0200 0000 0100 0000 0000"
lamps_view="# view of lamps, 1 event/# window e2 10..12 committed$(own lamps 1)"
viewed 'both committed' lamps "$p1_record" "$lamps_view"
viewed 'both committed' database "$p1_record" "# view of database, 2 events/# window e1 10..10 committed/# window e2 10..12 committed$(own database 0)"
# without events there is nothing to see
bytes '00000000 0000 0000 0000 0500 0100 0000 0000 0000 0700' >"$work/record"
for device in camera stage database; do
    tools/ticket show "$work/record" --as $device >"$work/got"
    case $device in camera) number=1 ;; stage) number=0 ;; database) number=7 ;; esac
    printf '# view of %s, no events%s\n' $device "$(own $device "$number")" | tr '/' '\n' >"$work/wanted"
    same "show --as $device, no events" "$work/wanted" "$work/got"
done

# unviewed NAME DEVICE HEX WANTED: the bytes are refused for the reason, and nothing is printed
unviewed() {
    bytes "$3" >"$work/record"
    echo "$4" >"$work/wanted"
    tools/ticket show "$work/record" --as "$2" >"$work/got" 2>"$work/errors"
    good $(($? != 1)) "show --as $2 refuses $1: exit status"
    same "show --as $2 refuses $1" "$work/wanted" "$work/errors"
    if [ -s "$work/got" ]; then fail "show --as $2 refuses $1: wrote to standard output"; else pass; fi
}
p1_hex="$(od -An -v -tx1 examples/tickets/p1.ticket | tr -d '\n')"
for device in camera stage database 2; do
    unviewed 'a ticket' $device "$p1_hex" 'this is a ticket: a device sees windows, which a record has'
    unviewed 'nothing' $device '' "$cut 0)"
    unviewed 'a ticket cut' $device '14000000 02' "$cut 4)"
    unviewed 'a wrong owner' $device '05000000 0100 05 0000' 'refused 4: an owner, or the device of a part, is above 4 (byte 6)'
    unviewed 'a record cut' $device "$p1_hex $p1_one 0500 0100 0000 0000 0000 00" "$cut 76)"
    unviewed 'a byte more' $device "$p1_hex $p1_one 0500 0100 0000 0000 0000 0000 00" 'refused 8: bytes follow the end (byte 78)'
    unviewed 'a flag of 2' $device "$p1_hex 0200 02 05000000 0a000000 00 08000000 09000000 0500 0000 0000 0000 0000 0000" "$no_record 48)"
    unviewed 'a count too low' $device "$p1_hex $p1_one 0500 0000 0000 0000 0000 0000" "$no_record 68)"
    unviewed 'the former layout' $device "$p1_hex $p1_one 0200" "$no_record 66; the bytes end as in the former layout, with one number for all devices)"
    # each rule of P1 broken by a tick
    for windows in '05000000 10000000 00 09000000 09000000' '04000000 0b000000 00 09000000 09000000' '0f000000 0f000000 00 0d000000 14000000' \
        '05000000 09000000 00 07000000 09000000' '05000000 0b000000 00 09000000 0a000000' '05000000 0c000000 00 09000000 09000000'; do
        unviewed "windows that are not fit, $windows" $device "$p1_hex 0200 00 $windows 0500 0000 0000 0000 0000 0000" \
            "refused 15: the record's windows allow a choice that breaks a rule"
    done
done
no_device='it is none of camera, filter-wheel, lamps, stage, database, and no number 0 to 4'
for word in wheel filterwheel Camera 'camera ' 5 00 -1 all --as ''; do
    unviewed 'what is no device' "$word" '' "device '$word': $no_device"
    unviewed 'what is no device' "$word" "$p1_hex $p1_free 0500 0000 0000 0000 0000 0000" "device '$word': $no_device"
done
tools/ticket show "$work/none" --as camera >"$work/got" 2>"$work/errors"
if [ $? -eq 1 ] && [ ! -s "$work/got" ] && [ -s "$work/errors" ]; then pass; else fail 'show --as without a file'; fi
# the bytes of a view may be those of a ticket
bytes '0100 01 00 04000000 04000000' | tools/ticket show >"$work/got"
printf '# ticket, 12 bytes\nhorizon 65537\nevent e1 camera\nevent e2 camera\nevent e3 database\nevent e4 camera\n' >"$work/wanted"
same "show the bytes of a view" "$work/wanted" "$work/got"

# ---- commitments and views in the text tool

# numbers TEXT COMMITMENTS WANTED: what examples/commit.c and examples/view.c take for these commitments
numbers() {
    tools/ticket by "$1" "$2" >"$work/got"
    good $? "by '$2': exit status"
    echo "$3" >"$work/wanted"
    same "by '$2'" "$work/wanted" "$work/got"
}
numbers $p1 'shutter 6..10' '0 1 6 10'
numbers $p1 'shutter 6..10, shutter 10..10' '0 1 6 10 0 1 10 10'
numbers $p1 '  flash  0.8s .. 9 ,shutter 1s..1.0s  ' '2 2 8 9 0 1 10 10'
numbers $p1 'flash 9..8,flash 0..4294967295' '2 2 9 8 2 2 0 4294967295'
numbers $p1 'shutter 6..10 as lamps' '2 1 6 10'
numbers $p1 'shutter 6..10 as camera, flash 9..9  as  filter-wheel ,flash 9..9 as 4' '0 1 6 10 1 2 9 9 4 2 9 9'
numbers $p1 'shutter 0.6s..1s as stage,shutter 6..10' '3 1 6 10 0 1 6 10'
numbers $p1 'shutter 6..10 as database' '4 1 6 10'
numbers $p1 '' ''
numbers $p1 ' ' ''
numbers examples/tickets/p8.txt '' ''
numbers examples/tickets/session.txt 'field 5s..8s, field 6s..6s' '3 1 50 80 3 1 60 60'
numbers examples/tickets/session.txt 'lamps-off 71s..71s, stored1 1..1' '2 9 710 710 4 5 1 1'

# no_numbers COMMITMENTS PART REASON: they are refused at the part, and nothing is printed
no_numbers() {
    tools/ticket by $p1 "$1" >"$work/got" 2>"$work/errors"
    good $(($? != 1)) "by refuses '$1': exit status"
    echo "commitment '$2': $3" >"$work/wanted"
    same "by refuses '$1'" "$work/wanted" "$work/errors"
    if [ -s "$work/got" ]; then fail "by refuses '$1': wrote to standard output"; else pass; fi
}
no_form="this is not of the form 'NAME OPEN..CLOSE' or 'NAME OPEN..CLOSE as DEVICE'; a comma stands between two"
no_numbers 'shuter 6..10' 'shuter 6..10' "$p1 has no event 'shuter'"
no_numbers 'shutter 6..10, Flash 8..9' 'Flash 8..9' "$p1 has no event 'Flash'"
no_numbers 'start 0..0' 'start 0..0' "$p1 has no event 'start'"
no_numbers 'shutter' 'shutter' "$no_form"
no_numbers 'shutter 6' 'shutter 6' "$no_form"
no_numbers 'shutter 6..' 'shutter 6..' "$no_form"
no_numbers 'shutter ..10' 'shutter ..10' "$no_form"
no_numbers 'shutter: 6..10' 'shutter: 6..10' "$no_form"
no_numbers 'shutter 6..10s5' 'shutter 6..10s5' "$no_form"
no_numbers '1 6..10' '1 6..10' "$no_form"
no_numbers 'shutter 6..10 shutter 10..10' 'shutter 6..10 shutter 10..10' "$no_form"
no_numbers 'shutter 6..10, ' '' "$no_form"
no_numbers 'shutter 6..10,,shutter 10..10' '' "$no_form"
no_numbers ',' '' "$no_form"
no_numbers 'shutter 6..10 as' 'shutter 6..10 as' "$no_form"
no_numbers 'shutter 6..10 by lamps' 'shutter 6..10 by lamps' "$no_form"
no_numbers 'shutter 6..10 as lamps stage' 'shutter 6..10 as lamps stage' "$no_form"
no_numbers 'shutter as lamps 6..10' 'shutter as lamps 6..10' "$no_form"
no_numbers 'lamps: shutter 6..10' 'lamps: shutter 6..10' "$no_form"
for word in wheel Lamps 5 02; do no_numbers "flash 9..9, shutter 6..10 as $word" "shutter 6..10 as $word" "device '$word': $no_device"; done
no_numbers 'shutter -1..10' 'shutter -1..10' 'the open is -1 ticks, and must lie in 0 to 4294967295'
no_numbers 'shutter 6..-0.1s' 'shutter 6..-0.1s' 'the close is -1 ticks, and must lie in 0 to 4294967295'
no_numbers 'shutter 6..4294967296' 'shutter 6..4294967296' 'the close is 4294967296 ticks, and must lie in 0 to 4294967295'
tools/ticket by "$work/none.txt" 'shutter 6..10' >"$work/got" 2>"$work/errors"
if [ $? -eq 1 ] && [ ! -s "$work/got" ] && [ -s "$work/errors" ]; then pass; else fail 'by without a text'; fi

# what examples/commit.c writes for the commitments of docs/TEXT-FORM.md, and with names
p1_plan='record 18 0 0 0 0 0/1 0 5 11/2 0 9 9'
p1_twice="$p1_plan/commit 0 1 6 10/record 14 1 0 0 0 0/1 1 6 10/2 0 8 10/commit 0 1 10 10/record 6 2 0 0 0 0/1 1 10 10/2 0 8 14"
p1_run="$p1_twice/commit 0 1 9 9/refused 13/commit 2 1 10 10/refused 20/commit 2 2 10 12/record 2 2 0 1 0 0/1 1 10 10/2 1 10 12"
p1_run_words='0 1 6 10 0 1 10 10 0 1 9 9 2 1 10 10 2 2 10 12'
p1_plan_told='plan: total 18, none accepted/  shutter  5..11/  flash    9..9'
p1_twice_told="$p1_plan_told/shutter commits 6..10: total 14, accepted camera 1/  shutter  6..10 committed/  flash    8..10/shutter commits 10..10: total 6, accepted camera 2/  shutter 10..10 committed/  flash    8..14"
p1_outside="refused 13: the open is above the close, or they are not inside the event's window"
not_own='refused 20: the caller owns no such event'
p1_run_told="$p1_twice_told/shutter commits 9..9: $p1_outside/shutter commits 10..10 as lamps: $not_own/flash commits 10..12: total 2, accepted camera 2, lamps 1/  shutter 10..10 committed/  flash   10..12 committed"
tells commits 'P1' $p1 "$p1_run" "$p1_run_told" 0
tells commits 'a plan alone' $p1 "$p1_plan" 'plan: total 18, none accepted/  shutter 5..11/  flash   9..9' 0
tells commits 'no events' examples/tickets/p8.txt 'record 0 0 0 0 0 0/commit 0 1 0 0/refused 20' "plan: total 0, none accepted/event 1 commits 0..0 as camera: $not_own" 0
tells commits 'the start, and numbers that no event has' $p1 "$p1_plan/commit 2 0 0 0/refused 20/commit 4 3 0 0/refused 20" \
    "plan: total 18, none accepted/  shutter 5..11/  flash   9..9/event 0 commits 0..0 as lamps: $not_own/event 3 commits 0..0 as database: $not_own" 0
tells commits 'callers' $p1 "$p1_plan/commit 1 1 6 6/refused 20/commit 3 2 9 9/refused 20/commit 4 2 9 9/refused 20/commit 5 2 9 9/refused 19/commit 4294967295 7 9 9/refused 19" \
    "plan: total 18, none accepted/  shutter 5..11/  flash   9..9/shutter commits 6..6 as filter-wheel: $not_own/flash commits 9..9 as stage: $not_own/flash commits 9..9 as database: $not_own/flash commits 9..9 as device 5: refused 19: the caller is no device: above 4/event 7 commits 9..9 as device 4294967295: refused 19: the caller is no device: above 4" 0
tells commits 'each device' $p1 'record 18 1 2 3 4 5/1 0 5 11/2 0 9 9' \
    'plan: total 18, accepted camera 1, filter-wheel 2, lamps 3, stage 4, database 5/  shutter 5..11/  flash   9..9' 0
tells commits '18' $p1 'record 18 65535 0 0 0 0/1 1 5 11/2 0 9 9/commit 0 1 5 11/refused 18' \
    "plan: total 18, accepted camera 65535/  shutter 5..11 committed/  flash   9..9/shutter commits 5..11: refused 18: the count of accepted commitments of the event's owner is 65,535 and cannot rise" 0
tells commits 'closes of two lengths' $p1 'record 18 0 0 0 0 0/1 1 5 11/2 1 9 9' 'plan: total 18, none accepted/  shutter 5..11 committed/  flash   9..9  committed' 0
tells commits 'refused' $p1 'refused 9' 'refused 9: no times keep all rules' 1

# no_run NAME LINES: the lines are no run on the plan of P1
no_run() { untold commits "$1" $p1 "$2" "this is no run of commitments on the plan of $p1"; }
no_run 'nothing' ''
no_run 'a plan of the program' 'plan 2 18/1 0 5 11/2 2 9 9/30 0 11 0 0'
no_run 'a window missing' 'record 18 0 0 0 0 0/1 0 5 11'
no_run 'a window too many' "$p1_plan/3 0 5 5"
no_run 'windows in another order' 'record 18 0 0 0 0 0/2 0 9 9/1 0 5 11'
no_run 'a flag of 2' 'record 18 0 0 0 0 0/1 2 5 11/2 0 9 9'
no_run 'a word in it' 'record 18 0 0 0 0 0/1 0 five 11/2 0 9 9'
no_run 'a count missing' 'record 18 0 0 0 0/1 0 5 11/2 0 9 9'
no_run 'a count too many' 'record 18 0 0 0 0 0 0/1 0 5 11/2 0 9 9'
no_run 'a count that is a word' 'record 18 0 0 one 0 0/1 0 5 11/2 0 9 9'
no_run 'one number for all devices' 'record 0 18/1 0 5 11/2 0 9 9'
no_run 'no plan' 'commit 0 1 6 10/record 14 1 0 0 0 0/1 1 6 10/2 0 8 10'
no_run 'two plans' "$p1_plan/$p1_plan"
no_run 'no answer' "$p1_plan/commit 0 1 6 10"
no_run 'no answer to the first' "$p1_plan/commit 0 1 6 10/commit 0 1 6 10/refused 13"
no_run 'two answers' "$p1_plan/commit 0 1 6 10/refused 13/refused 13"
no_run 'a commitment without a caller' "$p1_plan/commit 1 6 10/refused 13"
no_run 'a number too many' "$p1_plan/commit 0 1 6 10 10/refused 13"
no_run 'a caller that is a word' "$p1_plan/commit camera 1 6 10/refused 13"
no_run 'an unknown number' "$p1_plan/commit 0 1 6 10/refused 99"
no_run 'a refusal of nothing' "$p1_plan/refused 13"
no_run 'a line that is empty' "$p1_plan//commit 0 1 9 9/refused 13"

# what examples/view.c writes for P1 where the shutter commits to tick 10, the lamps ask for it too, and the flash commits
p1_views='view 0/1 0 5 11/view 1/view 2/2 0 9 9/view 3/view 4/1 0 5 11/2 0 9 9'
p1_seen="$p1_views/commit 0 1 10 10/view 0/1 1 10 10/view 1/view 2/2 0 8 14/view 3/view 4/1 1 10 10/2 0 8 14"
p1_views_run="$p1_seen/commit 2 1 10 10/refused 20/commit 2 2 9 12/view 0/1 1 10 10/view 1/view 2/2 1 9 12/view 3/view 4/1 1 10 10/2 1 9 12"
p1_views_told='plan/  camera: shutter 5..11/  filter-wheel: no events/  lamps: flash 9..9/  stage: no events/  database: shutter 5..11, flash 9..9'
p1_seen_told="$p1_views_told/shutter commits 10..10/  camera: shutter 10..10 committed/  filter-wheel: no events/  lamps: flash 8..14/  stage: no events/  database: shutter 10..10 committed, flash 8..14"
p1_views_run_told="$p1_seen_told/shutter commits 10..10 as lamps: $not_own/flash commits 9..12/  camera: shutter 10..10 committed/  filter-wheel: no events/  lamps: flash 9..12 committed/  stage: no events/  database: shutter 10..10 committed, flash 9..12 committed"
tells views 'P1' $p1 "$p1_views_run" "$p1_views_run_told" 0
tells views 'a plan alone' $p1 "$p1_views" "$p1_views_told" 0
tells views 'no events' examples/tickets/p8.txt 'view 0/view 1/view 2/view 3/view 4' \
    'plan/  camera: no events/  filter-wheel: no events/  lamps: no events/  stage: no events/  database: no events' 0
tells views 'one device owns all' $p4 'view 0/view 1/view 2/view 3/1 0 0 5/2 0 0 0/3 0 0 0/view 4/1 0 0 5/2 0 0 0/3 0 0 0' \
    'plan/  camera: no events/  filter-wheel: no events/  lamps: no events/  stage: move1 0..5, move2 0..0, move3 0..0/  database: move1 0..5, move2 0..0, move3 0..0' 0
tells views 'refused' $p1 'refused 9' 'refused 9: no times keep all rules' 1
# no_views NAME LINES: the lines are no views on the plan of P1
no_views() { untold views "$1" $p1 "$2" "this is no run of commitments on the plan of $p1"; }
no_views 'nothing' ''
no_views 'records' "$p1_run"
no_views 'a view missing' "${p1_views%/view 4*}"
no_views 'a view too many' "$p1_views/view 5"
no_views 'views in another order' 'view 1/view 0/1 0 5 11/view 2/2 0 9 9/view 3/view 4/1 0 5 11/2 0 9 9'
no_views 'an event that a device does not see' 'view 0/1 0 5 11/2 0 9 9/view 1/view 2/2 0 9 9/view 3/view 4/1 0 5 11/2 0 9 9'
no_views 'an event of another device' 'view 0/2 0 5 11/view 1/view 2/2 0 9 9/view 3/view 4/1 0 5 11/2 0 9 9'
no_views 'an event missing' 'view 0/1 0 5 11/view 1/view 2/view 3/view 4/1 0 5 11/2 0 9 9'
no_views 'an event that the database does not see' 'view 0/1 0 5 11/view 1/view 2/2 0 9 9/view 3/view 4/2 0 9 9'
no_views 'events in another order' 'view 0/1 0 5 11/view 1/view 2/2 0 9 9/view 3/view 4/2 0 9 9/1 0 5 11'
no_views 'a flag of 2' 'view 0/1 2 5 11/view 1/view 2/2 0 9 9/view 3/view 4/1 0 5 11/2 0 9 9'
no_views 'no flag' 'view 0/1 5 11/view 1/view 2/2 9 9/view 3/view 4/1 5 11/2 9 9'
no_views 'a word in it' 'view 0/1 0 five 11/view 1/view 2/2 0 9 9/view 3/view 4/1 0 5 11/2 0 9 9'
no_views 'no answer' "$p1_views/commit 0 1 10 10"
no_views 'a commitment without a caller' "$p1_views/commit 1 10 10/refused 13"
no_views 'an unknown number' "$p1_views/commit 0 1 10 10/refused 99"
no_views 'a line that is empty' "$p1_views//commit 0 1 9 9/refused 13"

# ---- lists of names and reasons in the text tool

printf '%s\n' camera filterwheel lamps stage database >"$work/wanted"
tools/ticket names examples/roster.names >"$work/got"
same 'names of the roster' "$work/wanted" "$work/got"
tools/ticket list examples/roster.txt "$work/made"
same 'list of the roster' examples/roster.names "$work/made"
printf 'camera filterwheel # two\n\n lamps\tstage\ndatabase' | tools/ticket list - >"$work/made"
same 'list of words on few lines' examples/roster.names "$work/made"
bytes '0000' >"$work/wanted"
printf '# none\n' | tools/ticket list - >"$work/made"
same 'list of no names' "$work/wanted" "$work/made"

# no_list WORDS LINE WORD: the words, in which / stands for a line end, are refused at the line, and nothing is written
no_list() {
    printf '%s\n' "$1" | tr '/' '\n' >"$work/text"
    rm -f "$work/made"
    tools/ticket list "$work/text" "$work/made" >"$work/got" 2>"$work/errors"
    status=$?
    printf '%s\n' "$work/text:$2: '$3' is no name of 1 to 16 letters a to z" >"$work/wanted"
    if [ $status -eq 1 ] && [ ! -e "$work/made" ] && [ ! -s "$work/got" ]; then pass; else fail "list refuses '$1'"; fi
    same "list refuses '$1', and says why" "$work/wanted" "$work/errors"
}
no_list 'camera/filter-wheel' 2 filter-wheel
no_list 'a b/c/ d Camera' 3 Camera
no_list 'abcdefghijklmnop/abcdefghijklmnopq' 2 abcdefghijklmnopq
no_list 'lamp1' 1 lamp1

# no_names HEX BYTE: the bytes are no list of names, which shows at the byte
no_names() {
    printf 'refused 16: a list of names breaks its layout (byte %s)\n' "$2" >"$work/wanted"
    bytes "$1" | tools/ticket names >"$work/got" 2>"$work/errors"
    good $(($? != 1)) "names refuses $1: exit status"
    same "names refuses $1" "$work/wanted" "$work/errors"
    if [ -s "$work/got" ]; then fail "names refuses $1: wrote to standard output"; else pass; fi
}
no_names '' 0
no_names '01' 0
no_names '0100' 2
no_names '0100 00' 2
no_names '0100 11 6161616161616161616161616161616161' 2
no_names '0100 02 61' 3
no_names '0100 02 617b' 3
no_names '0200 01 61 01 41' 5
no_names '0100 01 61 00' 4

# labelled NAMES LABELS: the labels of events with these names
labelled() {
    { echo horizon 9; for name in $1; do echo "event $name stage"; done; } >"$work/text"
    # shellcheck disable=SC2086
    printf '%s\n' $2 >"$work/wanted"
    tools/ticket encode "$work/text" "$work/made" "$work/labels"
    tools/ticket names "$work/labels" >"$work/got"
    same "labels of '$1'" "$work/wanted" "$work/got"
}
labelled 'later sooner' 'later sooner'
labelled 'a abcdefghijklmnop' 'a abcdefghijklmnop'
labelled 'a lamps-on lamp_ lamp1 Lamp abcdefghijklmnopq' 'a eventb eventc eventd evente eventf'
labelled 'x1 x2 eventa eventb eventc' 'eventao eventap eventa eventb eventc'
labelled 'x1 eventa eventao eventcc' 'eventdq eventa eventao eventcc'
labelled 'Eventb eventb event-b' 'eventa eventb eventc'

# forty events of which every other one has a label of its own that another would get: all labels are labels and differ
{
    echo horizon 9
    for letters in a b c d e f g h i j k l m n o p q r s t; do
        printf 'event event%s stage\nevent %s-%s stage\n' $letters $letters $letters
    done
} >"$work/text"
tools/ticket encode "$work/text" "$work/made" "$work/labels"
tools/ticket names "$work/labels" >"$work/got"
sort -u "$work/got" | grep -c -x '[a-z]\{1,16\}' >"$work/count"
echo 40 >"$work/wanted"
same 'forty labels' "$work/wanted" "$work/count"
tools/ticket encode examples/tickets/p8.txt "$work/made" "$work/got"
bytes '0000' >"$work/wanted"
same 'labels of no events' "$work/wanted" "$work/got"
printf 'horizon 9\nevent 1a stage\n' >"$work/text"
rm -f "$work/made" "$work/labels"
tools/ticket encode "$work/text" "$work/made" "$work/labels" 2>"$work/errors"
if [ $? -eq 1 ] && [ ! -e "$work/made" ] && [ ! -e "$work/labels" ] && grep -q "^$work/text:2: " "$work/errors"; then pass; else fail 'encode with labels refuses'; fi

# no_ring NAME TEXT RING: the lines are no ring of the text's rules
no_ring() { untold reason "$1" "$2" "$3" "this is no ring of the rules of $2"; }
p6=examples/tickets/p6-impossible.txt
p7=examples/tickets/p7-impossible.txt
p6_ring='at later stage/by 1 -1/at sooner stage/by 2 0'
p6_told='at later stage/by 1 -1  # line 6: rule later to sooner: -1/at sooner stage/by 2 0   # line 7: rule sooner to later: 0/# the bounds sum to -1: these rules cannot all be kept'
p7_told='at last stage/by 1 -11  # line 5: rule last to start: -11/at start/by 3 10   # every event lies at or before the horizon/# the bounds sum to -1: these rules cannot all be kept'
tells reason 'P6' $p6 "$p6_ring" "$p6_told" 0
tells reason 'P7' $p7 'at last stage/by 1 -11/at start/by 3 10' "$p7_told" 0
tells reason 'another roster' $p7 'at last table/by 1 -11/at start/by 3 10' "$(echo "$p7_told" | sed 's/stage/table/')" 0
tells reason '17' $p6 'refused 17' 'refused 17: there are times that keep all rules, so the ticket can be planned' 1
tells reason '16' $p6 'refused 16' 'refused 16: a list of names breaks its layout' 1
no_ring 'nothing' $p6 ''
no_ring 'a line missing' $p6 'at later stage/by 1 -1/at sooner stage'
no_ring 'a line too many' $p6 'at later stage/by 1 -1/at sooner stage/by 2 0/at later stage'
no_ring 'not closed' $p6 'at later stage/by 1 -1'
no_ring 'other points' $p6 'at later stage/by 1 -1/at later stage/by 2 0'
no_ring 'another bound' $p6 'at later stage/by 1 -2/at sooner stage/by 2 0'
no_ring 'a number too high' $p6 'at later stage/by 1 -1/at sooner stage/by 7 0'
no_ring 'number 0' $p6 'at later stage/by 1 -1/at sooner stage/by 0 0'
no_ring 'unknown event' $p6 'at last stage/by 1 -1/at sooner stage/by 2 0'
no_ring 'no device' $p6 'at later/by 1 -1/at sooner stage/by 2 0'
no_ring 'no name of a device' $p6 'at later stage1/by 1 -1/at sooner stage/by 2 0'
no_ring 'a sum above 0' $p6 'at later stage/by 3 0/at start/by 4 10'
no_ring 'a plan' $p6 'plan 2 0/1 3 1 1/2 3 0 0/0 0 0 0 0'

# the ticket of README.md: one name is no label
printf '%s\n' 'horizon 60s' 'event lamps-on lamps' 'event exposure camera' 'between lamps-on and exposure: 5s..20s' \
    'between start and exposure: ..4s' >"$work/my.txt"
my_told='at exposure camera/by 2 -50  # line 4: rule exposure to lamps-on: -50/at lamps-on lamps/by 4 0    # every event lies at or after start/at start/by 3 40   # line 5: rule start to exposure: 40/# the bounds sum to -10: these rules cannot all be kept'
tells reason 'a made label' "$work/my.txt" 'at exposure camera/by 2 -50/at eventa lamps/by 4 0/at start/by 3 40' "$my_told" 0
no_ring 'a name that is no label' "$work/my.txt" 'at exposure camera/by 2 -50/at lamps-on lamps/by 4 0/at start/by 3 40'

# ---- mended tickets in the text tool

# the same ticket with its last two lines the other way round: of `between` one rule is kept
sed -n '1,3p;5p' "$work/my.txt" >"$work/turned.txt"
sed -n 4p "$work/my.txt" >>"$work/turned.txt"
p6_dropped='# rule sooner to later: 0/# dropped rule 2, line 7: rule sooner to later: 0/# dropped 1 of 2 rules: this ticket can be planned'
p6_mended="$(head -n 6 $p6 | tr '\n' '/')$p6_dropped"
p7_mended="$(head -n 4 $p7 | tr '\n' '/')# rule last to start: -11/# dropped rule 1, line 5: rule last to start: -11/# dropped 1 of 1 rules: this ticket can be planned"
p1_mended="$(tr '\n' '/' <$p1)# dropped none of 6 rules: this ticket can be planned"
my_events='horizon 60s/event lamps-on lamps/event exposure camera'
my_mended="$my_events/between lamps-on and exposure: 5s..20s/# between start and exposure: ..4s/# dropped rule 3, line 5: rule start to exposure: 40/# dropped 1 of 3 rules: this ticket can be planned"
turned_mended="$my_events/between start and exposure: ..4s/# between lamps-on and exposure: 5s..20s/rule lamps-on to exposure: 200/# dropped rule 3, line 5: rule exposure to lamps-on: -50/# dropped 1 of 3 rules: this ticket can be planned"
tells mended 'P6' $p6 'dropped 2' "$p6_mended" 0
tells mended 'P7, each rule' $p7 'dropped 1' "$p7_mended" 0
tells mended 'P1, none' $p1 'dropped' "$p1_mended" 0
tells mended 'no rules' examples/tickets/p8.txt 'dropped' "$(tr '\n' '/' <examples/tickets/p8.txt)# dropped none of 0 rules: this ticket can be planned" 0
tells mended 'README' "$work/my.txt" 'dropped 3' "$my_mended" 0
tells mended 'the second rule of a line' "$work/turned.txt" 'dropped 3' "$turned_mended" 0
tells mended 'the first rule of a line' "$work/my.txt" 'dropped 1' \
    "$my_events/# between lamps-on and exposure: 5s..20s/# dropped rule 1, line 4: rule lamps-on to exposure: 200/rule exposure to lamps-on: -50/between start and exposure: ..4s/# dropped 1 of 3 rules: this ticket can be planned" 0
tells mended 'both rules of a line' "$work/my.txt" 'dropped 1 2' \
    "$my_events/# between lamps-on and exposure: 5s..20s/# dropped rule 1, line 4: rule lamps-on to exposure: 200/# dropped rule 2, line 4: rule exposure to lamps-on: -50/between start and exposure: ..4s/# dropped 2 of 3 rules: this ticket can be planned" 0
tells mended 'refused' $p6 'refused 8' 'refused 8: bytes follow the end' 1
# no_dropped NAME LINES: the lines are no list of rules of P6
no_dropped() { untold mended "$1" $p6 "$2" "this is no list of rules dropped from $p6"; }
no_dropped 'nothing' ''
no_dropped 'number 0' 'dropped 0'
no_dropped 'a number too high' 'dropped 3'
no_dropped 'falling numbers' 'dropped 2 1'
no_dropped 'equal numbers' 'dropped 2 2'
no_dropped 'a number below 0' 'dropped -1'
no_dropped 'a word in it' 'dropped two'
no_dropped 'another word' 'kept 2'
no_dropped 'a number alone' '2'
no_dropped 'two lists' 'dropped 1/dropped 2'
no_dropped 'a line that is empty' 'dropped 2/'
no_dropped 'a ring' "$p6_ring"

# without TEXT NUMBERS: what is printed without these rules stands for the bytes of the text's ticket without them
without() {
    tools/ticket encode "$1" "$work/ticket"
    # shellcheck disable=SC2086
    python3 - "$work/ticket" $2 >"$work/wanted" <<'BYTES'
import sys
ticket, dropped = open(sys.argv[1], "rb").read(), set(map(int, sys.argv[2:]))
first = 8 + ticket[4]
rules = [ticket[at : at + 6] for at in range(first, len(ticket), 6)]
kept = [rule for number, rule in enumerate(rules, 1) if number not in dropped]
sys.stdout.buffer.write(ticket[: first - 2] + len(kept).to_bytes(2, "little") + b"".join(kept))
BYTES
    # shellcheck disable=SC2086
    echo dropped $2 | tools/ticket mended "$1" >"$work/mended.txt"
    tools/ticket encode "$work/mended.txt" "$work/made"
    same "$1 without the rules '$2'" "$work/wanted" "$work/made"
}
# comments, two kinds of line end and of space, forms of `between`, and no line end at the end
printf '# gr\303\266sse\r\nhorizon 9s\r\n\r\nevent a stage # one\r\n\tevent b lamps\nbetween a and b: 1s..2s # both\r\nrule  start to a :5\n between start and b: ..7#x\nevent c stage\nbetween c and b: -2 .. 2\nbetween c and a: -0.3s..' >"$work/forms.txt"
for text in $p1 examples/tickets/session.txt "$work/forms.txt"; do
    tools/ticket encode "$text" "$work/made"
    rules=$(tools/ticket show "$work/made" | grep -c '^rule ')
    for numbers in '' "$(seq -s ' ' 1 "$rules")" "$(seq -s ' ' 1 2 "$rules")" "$(seq -s ' ' 2 2 "$rules")"; do
        without "$text" "$numbers"
    done
done
# what stands in the lines beside the rules is there again
without "$work/forms.txt" '2 3 7'
printf '# gr\303\266sse\r\nhorizon 9s\r\n\r\nevent a stage # one\r\n\tevent b lamps\n# between a and b: 1s..2s # both\r\nrule a to b: 20\n# dropped rule 2, line 6: rule b to a: -10\n# rule  start to a :5\n# dropped rule 3, line 7: rule start to a: 5\n between start and b: ..7#x\nevent c stage\nbetween c and b: -2 .. 2\n# between c and a: -0.3s..\n# dropped rule 7, line 11: rule a to c: 3\n# dropped 3 of 7 rules: this ticket can be planned\n' >"$work/wanted"
same 'mended, comments and line ends' "$work/wanted" "$work/mended.txt"

# ---- parts in the text tool

# number DEVICE WANTED: the number of a device
number() {
    tools/ticket device "$1" >"$work/got"
    good $? "device '$1': exit status"
    echo "$2" >"$work/wanted"
    same "device '$1'" "$work/wanted" "$work/got"
}
number camera 0
number filter-wheel 1
number lamps 2
number stage 3
number database 4
for word in 0 1 2 3 4; do number $word $word; done
for word in wheel filterwheel Camera 'camera ' lamp 5 00 -1 1.0 4294967296 ''; do
    tools/ticket device "$word" >"$work/got" 2>"$work/errors"
    good $(($? != 1)) "device refuses '$word': exit status"
    echo "device '$word': $no_device" >"$work/wanted"
    same "device refuses '$word'" "$work/wanted" "$work/errors"
    if [ -s "$work/got" ]; then fail "device refuses '$word': wrote to standard output"; else pass; fi
done

session=examples/tickets/session.txt
tells part 'P1, camera' $p1 'part 0 30/1 5 15' 'camera alone: total 30/  shutter 5..15' 0
tells part 'P1, lamps' $p1 'part 2 11/2 8 19' 'lamps alone: total 11/  flash 8..19' 0
tells part 'P1, wheel' $p1 'part 1 0' 'filter-wheel alone: total 0, no events' 0
tells part 'P1, database' $p1 'part 4 0' 'database alone: total 0, no events' 0
tells part 'no events' examples/tickets/p8.txt 'part 3 0' 'stage alone: total 0, no events' 0
tells part 'names and numbers of two lengths' $session 'part 2 430/3 0 0/9 170 600' 'lamps alone: total 430/  lamps-on    0..0/  lamps-off 170..600' 0
tells part 'refused' $p1 'refused 9' 'refused 9: no times keep all rules' 1
tells part 'refused, the device' $p1 'refused 4' 'refused 4: an owner, or the device of a part, is above 4' 1
# no_part NAME LINES: the lines are no part of P1
no_part() { untold part "$1" $p1 "$2" "this is no part of $p1"; }
no_part 'nothing' ''
no_part 'no total' 'part 0/1 5 15'
no_part 'another word' 'parts 0 30/1 5 15'
no_part 'no such device' 'part 5 0'
no_part 'an event missing' 'part 0 30'
no_part 'an event too many' 'part 0 30/1 5 15/2 8 19'
no_part 'an event of another device' 'part 0 30/2 5 15'
no_part 'an event of a device that has none' 'part 1 0/1 5 15'
no_part 'an event twice' 'part 0 30/1 5 15/1 5 15'
no_part 'no close' 'part 0 30/1 5'
no_part 'a flag' 'part 0 30/1 0 5 15'
no_part 'a word in it' 'part 0 30/1 five 15'
no_part 'a number below 0' 'part 0 30/1 -5 15'
no_part 'a line that is empty' 'part 1 0/'
no_part 'two parts' 'part 1 0/part 3 0'
no_part 'a plan' 'plan 2 18/1 0 5 11/2 2 9 9/30 0 11 0 0'
untold part 'events in another order' $session 'part 0 570/7 110 300/4 50 50' "this is no part of $session"

for number in 11 12 16 17 18 19 20; do
    echo "refused $number" | tools/ticket explain >"$work/got" 2>"$work/errors"
    if [ $? -eq 1 ] && grep -q "^refused $number: ...*" "$work/errors" && [ ! -s "$work/got" ]; then pass; else fail "explain $number"; fi
done
for command in 'list' 'reason' 'mended' 'device' 'part' 'table' 'stops' 'by' 'by a' 'commits' 'views' 'names a b' 'show a b' 'show --as' 'show a --as' 'show - a --as camera' 'show --as camera a b' 'show --as camera --as camera' 'show --as camera a --as' 'encode a b c d' 'list a b c' \
    'reason a b c' 'mended a b c' 'device camera lamps' 'part a b c' 'table a b c' 'stops a b c' 'by a b c' 'commits a b c' 'views a b c'; do
    # shellcheck disable=SC2086
    tools/ticket $command >"$work/got" 2>"$work/errors"
    if [ $? -eq 2 ] && [ ! -s "$work/got" ]; then pass; else fail "the wrong call '$command'"; fi
done

# ---- the header, the library and the example programs

# the tickets and lists of reasons.txt become files, and their names and answers a list
python3 - "$here/reasons.txt" "$work" <<'CASES' >"$work/reasons"
import sys
def listed(names):
    if names.startswith(":"):
        return bytes.fromhex(names[1:])
    words = names.split()
    return len(words).to_bytes(2, "little") + b"".join(bytes([len(word)]) + word.encode("ascii") for word in words)
rows = [line.rstrip("\n").split("|") for line in open(sys.argv[1], encoding="ascii") if not line.startswith("#")]
for number, row in enumerate(rows):
    name, ticket, labels, roster, answer = (part.strip() for part in row)
    content = {"ticket": bytes.fromhex(ticket), "labels": listed(labels),
               "roster": listed(roster) if roster else open("examples/roster.names", "rb").read()}
    for kind, data in content.items():
        with open(f"{sys.argv[2]}/{number}.{kind}", "wb") as file:
            file.write(data)
    print(number, name, answer, sep="|")
CASES
good $(($(wc -l <"$work/reasons") != $(grep -c -v '^#' "$here/reasons.txt"))) 'every line of reasons.txt'
# misused NAME FORM WORDS: an example program, made by $compiler, called with words that are not of its form
misused() {
    # shellcheck disable=SC2086
    "$work/$1" $3 <examples/tickets/p1.ticket >"$work/got" 2>"$work/errors"
    good $(($? != 2)) "$1 called with '$3', with $compiler: exit status"
    echo "usage: $1 $2 <TICKET" >"$work/wanted"
    same "$1 called with '$3', with $compiler" "$work/wanted" "$work/errors"
    if [ -s "$work/got" ]; then fail "$1 called with '$3', with $compiler: wrote to standard output"; else pass; fi
}
# what each device sees of the session's plan, and once the database has committed its second event
session_views='view 0/4 0 540 590/7 0 650 790/view 1/2 0 15 535/6 0 645 645/view 2/3 0 250 490/9 0 850 850/view 3/1 0 30 200/view 4/1 0 30 200/2 0 15 535/3 0 250 490/4 0 540 590/5 0 630 630/6 0 645 645/7 0 650 790/8 0 850 850/9 0 850 850'
session_stored=$(echo "$session_views" | sed 's,/8 0 ,/8 1 ,')
for compiler in gcc clang; do
    command -v $compiler >/dev/null || continue
    $compiler -std=c99 -Wall -Wextra -Werror -pedantic -Iinclude examples/host.c "$library" -o "$work/host" && "$work/host" >"$work/got"
    good $? "examples/host.c with $compiler"
    same "what examples/host.c prints, with $compiler" examples/host.expected "$work/got"
    $compiler -std=c99 -Wall -Wextra -Werror -pedantic -Iinclude examples/table.c "$library" -o "$work/table"
    good $? "examples/table.c with $compiler"
    while IFS='|' read -r name wanted; do
        "$work/table" <"examples/tickets/${name% }.ticket" >"$work/got"
        printf '%s\n' "${wanted# }" | tr '/' '\n' >"$work/wanted"
        same "table of ${name% }, with $compiler" "$work/wanted" "$work/got"
    done <<'TABLES'
p1 | 0 15 19/-5 0 4/-8 2 0
p4 | 0 5 5 5/0 0 0 0/0 5 0 0/0 5 5 0
p7 | 0 10/-10 0
p7-impossible | refused 9
p8 | 0
p9 | refused 1
TABLES
    while IFS='|' read -r name wanted; do
        "$work/table" stops <"examples/tickets/${name% }.ticket" >"$work/got"
        status=$?
        case $wanted in *refused*) status=$((status != 1)) ;; esac
        good $status "tables of ${name% } after stops, with $compiler: exit status"
        printf '%s\n' "${wanted# }" | tr '/' '\n' >"$work/wanted"
        same "tables of ${name% } after stops, with $compiler" "$work/wanted" "$work/got"
    done <<TABLES
p1 | $p1_stops
p4 | $p4_stops
p7 | stops 0/0 10/-10 0/stops 1/0 10/-10 0/stops 2/0 10/-10 0
p6-impossible | refused 9
p7-impossible | refused 9
p8 | stops 0/0/stops 1/0
p9 | refused 1
p10 | stops 0/0 5 5/0 0 none/0 none 0/stops 1/0 5 5/0 0 none/0 none 0/stops 2/0 5 5/0 0 none/0 none 0/stops 3/0 5 5/0 0 5/0 5 0
TABLES
    # the last of the session's eleven tables is its table
    "$work/table" <examples/tickets/session.ticket >"$work/wanted"
    "$work/table" stops <examples/tickets/session.ticket >"$work/stops"
    tail -n 10 "$work/stops" >"$work/got"
    same "the session's last table, with $compiler" "$work/wanted" "$work/got"
    for words in stop Stops 'stops stops' 'stops 1' 1 -h; do misused table '[stops]' "$words"; done
    $compiler -std=c99 -Wall -Wextra -Werror -pedantic -Iinclude examples/commit.c "$library" -o "$work/commit"
    good $? "examples/commit.c with $compiler"
    while IFS='|' read -r name words wanted; do
        # shellcheck disable=SC2086
        "$work/commit" $words <"examples/tickets/${name% }.ticket" >"$work/got"
        status=$?
        case $wanted in ' refused'*) status=$((status != 1)) ;; esac
        good $status "commitments on ${name% }: $words, with $compiler: exit status"
        printf '%s\n' "${wanted# }" | tr '/' '\n' >"$work/wanted"
        same "commitments on ${name% }: $words, with $compiler" "$work/wanted" "$work/got"
    done <<RUNS
p1 | | $p1_plan
p1 | $p1_run_words | $p1_run
p1 | 00 01 006 10 0 1 10 10 | $p1_twice
p1 | 0 1 10 10 0 1 10 10 | $p1_plan/commit 0 1 10 10/record 6 1 0 0 0 0/1 1 10 10/2 0 8 14/commit 0 1 10 10/record 6 2 0 0 0 0/1 1 10 10/2 0 8 14
p1 | 2 2 9 9 0 1 5 11 2 2 9 9 | $p1_plan/commit 2 2 9 9/record 18 0 0 1 0 0/1 0 5 11/2 1 9 9/commit 0 1 5 11/record 18 1 0 1 0 0/1 1 5 11/2 1 9 9/commit 2 2 9 9/record 18 1 0 2 0 0/1 1 5 11/2 1 9 9
p1 | 0 0 5 5 2 3 5 5 4 4294967295 0 0 | $p1_plan/commit 0 0 5 5/refused 20/commit 2 3 5 5/refused 20/commit 4 4294967295 0 0/refused 20
p1 | 2 1 6 10 0 2 9 9 4 1 6 10 1 2 9 9 | $p1_plan/commit 2 1 6 10/refused 20/commit 0 2 9 9/refused 20/commit 4 1 6 10/refused 20/commit 1 2 9 9/refused 20
p1 | 5 1 6 10 4294967295 0 9 8 0 1 11 11 | $p1_plan/commit 5 1 6 10/refused 19/commit 4294967295 0 9 8/refused 19/commit 0 1 11 11/record 6 1 0 0 0 0/1 1 11 11/2 0 9 15
p1 | 0 1 7 6 0 1 4 10 2 2 8 4294967295 | $p1_plan/commit 0 1 7 6/refused 13/commit 0 1 4 10/refused 13/commit 2 2 8 4294967295/refused 13
p4 | 3 1 2 5 3 2 1 2 3 1 4 5 3 2 2 2 | record 5 0 0 0 0 0/1 0 0 5/2 0 0 0/3 0 0 0/commit 3 1 2 5/record 5 0 0 0 1 0/1 1 2 5/2 0 0 2/3 0 0 0/commit 3 2 1 2/record 5 0 0 0 2 0/1 1 2 5/2 1 1 2/3 0 0 1/commit 3 1 4 5/record 3 0 0 0 3 0/1 1 4 5/2 1 1 2/3 0 0 1/commit 3 2 2 2/record 3 0 0 0 4 0/1 1 4 5/2 1 2 2/3 0 0 2
p7-impossible | 3 1 10 10 | refused 9
p8 | 4 1 0 0 | record 0 0 0 0 0 0/commit 4 1 0 0/refused 20
p9 | | refused 1
RUNS
    # before any commitment it prints the program's plan, but for the totals of the parts
    for ticket in examples/tickets/*.ticket; do
        "$planner" <"$ticket" | awk 'NF == 5 { next } $1 == "plan" { print $3; next } $1 != "refused" { $2 = "" } { print }' | tr -s ' ' >"$work/wanted"
        "$work/commit" <"$ticket" | awk '$1 == "record" { print $2; next } $1 != "refused" { $2 = "" } { print }' | tr -s ' ' >"$work/got"
        same "the plan of $ticket before commitments, with $compiler" "$work/wanted" "$work/got"
    done
    $compiler -std=c99 -Wall -Wextra -Werror -pedantic -Iinclude examples/view.c "$library" -o "$work/view"
    good $? "examples/view.c with $compiler"
    while IFS='|' read -r name words wanted; do
        # shellcheck disable=SC2086
        "$work/view" $words <"examples/tickets/${name% }.ticket" >"$work/got"
        status=$?
        case $wanted in ' refused'*) status=$((status != 1)) ;; esac
        good $status "views of ${name% }: $words, with $compiler: exit status"
        printf '%s\n' "${wanted# }" | tr '/' '\n' >"$work/wanted"
        same "views of ${name% }: $words, with $compiler" "$work/wanted" "$work/got"
    done <<RUNS
p1 | | $p1_views
p1 | 0 1 10 10 2 1 10 10 2 2 9 12 | $p1_views_run
p1 | 4 1 10 10 5 1 10 10 0 3 5 5 0 1 12 12 | $p1_views/commit 4 1 10 10/refused 20/commit 5 1 10 10/refused 19/commit 0 3 5 5/refused 20/commit 0 1 12 12/refused 13
p4 | 3 1 2 5 | view 0/view 1/view 2/view 3/1 0 0 5/2 0 0 0/3 0 0 0/view 4/1 0 0 5/2 0 0 0/3 0 0 0/commit 3 1 2 5/view 0/view 1/view 2/view 3/1 1 2 5/2 0 0 2/3 0 0 0/view 4/1 1 2 5/2 0 0 2/3 0 0 0
p7-impossible | 3 1 10 10 | refused 9
p8 | | view 0/view 1/view 2/view 3/view 4
p9 | | refused 1
session | 4 8 850 850 | $session_views/commit 4 8 850 850/$session_stored
RUNS
    for program in commit view; do
        for words in 0 '0 1' '0 1 6' '1 6 10' '0 1 6 10 0' '0 1 6 10 0 1 10' 'camera 1 6 10' '0 shutter 6 10' '0 1 6..10' '-1 1 6 10' '0 1 -6 10' '0 1 +6 10' '0 1 6 10x' '0 1 6 0xa' \
            '4294967296 1 6 10' '0 1 6 4294967296' '0 1 6 18446744073709551626' -h; do
            misused $program '[CALLER EVENT OPEN CLOSE]..' "$words"
        done
    done
    $compiler -std=c99 -Wall -Wextra -Werror -pedantic -Iinclude examples/reason.c "$library" -o "$work/reason"
    good $? "examples/reason.c with $compiler"
    while IFS='|' read -r number name wanted; do
        printf '%s\n' "$wanted" | tr '/' '\n' >"$work/wanted"
        "$work/reason" "$work/$number.labels" "$work/$number.roster" <"$work/$number.ticket" >"$work/got"
        status=$?
        case $wanted in refused*) status=$((status != 1)) ;; esac
        good $status "reason of $name, with $compiler: exit status"
        same "reason of $name, with $compiler" "$work/wanted" "$work/got"
    done <"$work/reasons"
    $compiler -std=c99 -Wall -Wextra -Werror -pedantic -Iinclude examples/mend.c "$library" -o "$work/mend"
    good $? "examples/mend.c with $compiler"
    # the numbers, and the mended ticket: its bytes, or the ticket itself where no rule is dropped; none where it is refused
    while IFS='|' read -r name wanted hex; do
        ticket=examples/tickets/${name% }.ticket
        wanted=${wanted# } wanted=${wanted% }
        rm -f "$work/mended"
        "$work/mend" "$work/mended" <"$ticket" >"$work/got"
        status=$?
        case $wanted in
        refused*) good $((status != 1)) "mend ${name% }, with $compiler: exit status"
            if [ -e "$work/mended" ]; then fail "mend ${name% }, with $compiler: wrote a ticket"; else pass; fi ;;
        *) good $status "mend ${name% }, with $compiler: exit status"
            if [ "$wanted" = dropped ]; then cp "$ticket" "$work/wanted"; else bytes "$hex" >"$work/wanted"; fi
            same "${name% } mended, with $compiler" "$work/wanted" "$work/mended" ;;
        esac
        echo "$wanted" >"$work/wanted"
        same "mend ${name% }, with $compiler" "$work/wanted" "$work/got"
    done <<'MENDS'
p1 | dropped |
p4 | dropped |
p6 | dropped |
p6-impossible | dropped 2 | 0a000000 0200 0303 0100 0102ffffffff
p7 | dropped |
p7-impossible | dropped 1 | 0a000000 0100 03 0000
p8 | dropped |
p9 | refused 1 |
p10 | dropped |
session | dropped |
MENDS
    for words in '' 'a b' 'a b c'; do misused mend 'MENDED' "$words"; done
    $compiler -std=c99 -Wall -Wextra -Werror -pedantic -Iinclude examples/part.c "$library" -o "$work/part"
    good $? "examples/part.c with $compiler"
    while IFS='|' read -r name device wanted; do
        device=${device# } device=${device% }
        "$work/part" "$device" <"examples/tickets/${name% }.ticket" >"$work/got"
        status=$?
        case $wanted in ' refused'*) status=$((status != 1)) ;; esac
        good $status "part of ${name% }, device $device, with $compiler: exit status"
        printf '%s\n' "${wanted# }" | tr '/' '\n' >"$work/wanted"
        same "part of ${name% }, device $device, with $compiler" "$work/wanted" "$work/got"
    done <<'PARTS'
p1 | 0 | part 0 30/1 5 15
p1 | 1 | part 1 0
p1 | 2 | part 2 11/2 8 19
p1 | 3 | part 3 0
p1 | 4 | part 4 0
p1 | 002 | part 2 11/2 8 19
p1 | 5 | refused 4
p1 | 4294967295 | refused 4
p4 | 3 | part 3 5/1 0 5/2 0 0/3 0 0
p6 | 3 | part 3 0/1 1 1/2 0 0
p6-impossible | 3 | refused 9
p6-impossible | 0 | refused 9
p6-impossible | 5 | refused 4
p7 | 3 | part 3 0/1 10 10
p7-impossible | 3 | refused 9
p8 | 0 | part 0 0
p9 | 0 | refused 1
p9 | 5 | refused 4
p10 | 3 | part 3 10/1 0 5/2 0 5
session | 0 | part 0 570/4 50 50/7 110 300
session | 1 | part 1 710/2 15 45/6 105 785
session | 2 | part 2 430/3 0 0/9 170 600
session | 3 | part 3 170/1 30 200
session | 4 | part 4 0/5 90 90/8 170 170
PARTS
    for words in '' camera '0 1' -1 +1 1x 0x1 4294967296 18446744073709551616 -h; do misused part 'DEVICE' "$words"; done
done
printf '#include "beyunlak.h"\nint main() { return BEYUNLAK_RECORD_MAX == 1958 && BEYUNLAK_DEVICES == 5 && BEYUNLAK_DROPPED_MAX == 514 && BEYUNLAK_PART_MAX == 362 && BEYUNLAK_VIEW_MAX == 402 ? 0 : 1; }\n' >"$work/host.cpp"
g++ -Wall -Wextra -Werror -pedantic -Iinclude "$work/host.cpp" -o "$work/cpp" && "$work/cpp"
good $? 'beyunlak.h in C++'
cat >"$work/host.cpp" <<'HOST'
#include <cstring>
#include "beyunlak.h"
int main() {
    const uint8_t ticket[] = {10, 0, 0, 0, 1, 0, BEYUNLAK_STAGE, 1, 0, 1, 0, 0xf5, 0xff, 0xff, 0xff}, labels[] = {1, 0, 1, 'x'};
    const uint8_t roster[] = {BEYUNLAK_DEVICES, 0, 1, 'a', 1, 'b', 1, 'c', 1, 'd', 1, 'e'};
    const char *wanted = "at x d\nby 1 -11\nat start\nby 3 10\n";
    uint8_t text[BEYUNLAK_REASON_MAX];
    uint32_t length;
    const uint32_t answer = beyunlak_reason(ticket, sizeof ticket, labels, sizeof labels, roster, sizeof roster, text, sizeof text, &length);
    return answer == BEYUNLAK_ACCEPTED && length == std::strlen(wanted) && !std::memcmp(text, wanted, length) ? 0 : 1;
}
HOST
g++ -Wall -Wextra -Werror -pedantic -Iinclude "$work/host.cpp" "$library" -o "$work/cpp" && "$work/cpp"
good $? 'beyunlak_reason in C++'

cat >"$work/host.cpp" <<'HOST'
#include "beyunlak.h"
int main() {
    const uint8_t ticket[] = {9, 0, 0, 0, 2, 0, BEYUNLAK_STAGE, BEYUNLAK_LAMPS, 1, 0, 1, 2, 4, 0, 0, 0};
    const int32_t wanted[] = {0, 9, 9, 0, 0, 4, 0, BEYUNLAK_NO_PATH, 0};
    static int32_t table[BEYUNLAK_TABLE_MAX];
    const uint32_t answer = beyunlak_table_after(ticket, sizeof ticket, 2, table, BEYUNLAK_TABLE_MAX);
    for (int i = 0; i < 9; i++)
        if (table[i] != wanted[i]) return 1;
    return answer == BEYUNLAK_ACCEPTED ? 0 : 1;
}
HOST
g++ -Wall -Wextra -Werror -pedantic -Iinclude "$work/host.cpp" "$library" -o "$work/cpp" && "$work/cpp"
good $? 'beyunlak_table_after in C++'

cat >"$work/host.cpp" <<'HOST'
#include <cstring>
#include "beyunlak.h"
int main() {
    const uint8_t ticket[] = {10, 0, 0, 0, 1, 0, BEYUNLAK_STAGE, 2, 0, 1, 0, 0xf5, 0xff, 0xff, 0xff, 1, 0, 0xf6, 0xff, 0xff, 0xff};
    const uint8_t mended[] = {10, 0, 0, 0, 1, 0, BEYUNLAK_STAGE, 1, 0, 1, 0, 0xf6, 0xff, 0xff, 0xff}, list[] = {1, 0, 1, 0};
    uint8_t out[BEYUNLAK_TICKET_MAX], dropped[BEYUNLAK_DROPPED_MAX];
    if (beyunlak_mend(ticket, sizeof ticket, out, sizeof out, dropped, sizeof dropped) != BEYUNLAK_ACCEPTED) return 1;
    if (sizeof mended != BEYUNLAK_TICKET_LENGTH(1, 1) || sizeof list != BEYUNLAK_DROPPED_LENGTH(1)) return 1;
    return std::memcmp(out, mended, sizeof mended) || std::memcmp(dropped, list, sizeof list) ? 1 : 0;
}
HOST
g++ -Wall -Wextra -Werror -pedantic -Iinclude "$work/host.cpp" "$library" -o "$work/cpp" && "$work/cpp"
good $? 'beyunlak_mend in C++'

cat >"$work/host.cpp" <<'HOST'
#include <cstring>
#include "beyunlak.h"
int main() {
    const uint8_t ticket[] = {9, 0, 0, 0, 2, 0, BEYUNLAK_STAGE, BEYUNLAK_LAMPS, 1, 0, 1, 2, 4, 0, 0, 0};
    const uint8_t wanted[] = {1, 0, 2, 0, 0, 0, 0, 9, 0, 0, 0};
    uint8_t part[BEYUNLAK_PART_MAX];
    if (beyunlak_part(ticket, sizeof ticket, BEYUNLAK_LAMPS, part, sizeof part) != BEYUNLAK_ACCEPTED) return 1;
    return sizeof wanted != BEYUNLAK_PART_LENGTH(1) || std::memcmp(part, wanted, sizeof wanted) ? 1 : 0;
}
HOST
g++ -Wall -Wextra -Werror -pedantic -Iinclude "$work/host.cpp" "$library" -o "$work/cpp" && "$work/cpp"
good $? 'beyunlak_part in C++'

cat >"$work/host.cpp" <<'HOST'
#include <cstring>
#include "beyunlak.h"
int main() {
    const uint8_t ticket[] = {9, 0, 0, 0, 2, 0, BEYUNLAK_STAGE, BEYUNLAK_LAMPS, 0, 0};
    const uint8_t wanted[] = {1, 0, 2, 1, 3, 0, 0, 0, 4, 0, 0, 0};
    uint8_t plan[BEYUNLAK_RECORD_MAX], next[BEYUNLAK_RECORD_MAX], view[BEYUNLAK_VIEW_MAX];
    const size_t length = BEYUNLAK_RECORD_LENGTH(2, 0);
    if (beyunlak_plan(ticket, sizeof ticket, plan, sizeof plan) != BEYUNLAK_ACCEPTED) return 1;
    if (beyunlak_commit(plan, length, BEYUNLAK_STAGE, 2, 3, 4, next, sizeof next) != BEYUNLAK_NOT_OWN) return 1;
    if (beyunlak_commit(plan, length, BEYUNLAK_DEVICES, 2, 3, 4, next, sizeof next) != BEYUNLAK_CALLER) return 1;
    if (beyunlak_commit(plan, length, BEYUNLAK_LAMPS, 2, 3, 4, next, sizeof next) != BEYUNLAK_ACCEPTED) return 1;
    if (beyunlak_view(next, length, BEYUNLAK_LAMPS, view, sizeof view) != BEYUNLAK_ACCEPTED) return 1;
    return sizeof wanted != BEYUNLAK_VIEW_LENGTH(1) || std::memcmp(view, wanted, sizeof wanted) ? 1 : 0;
}
HOST
g++ -Wall -Wextra -Werror -pedantic -Iinclude "$work/host.cpp" "$library" -o "$work/cpp" && "$work/cpp"
good $? 'beyunlak_commit and beyunlak_view in C++'

# the bytes of a record: plans the ticket on standard input and makes the commitments that the words say, each by its owner
cat >"$work/record.c" <<'HOST'
#include <stdio.h>
#include <stdlib.h>
#include <string.h>
#include "beyunlak.h"
int main(int count, char **words) {
    static uint8_t in[BEYUNLAK_RECORD_MAX], out[BEYUNLAK_RECORD_MAX];
    uint32_t answer = beyunlak_plan(in, fread(in, 1, sizeof in, stdin), out, sizeof out);
    size_t length = BEYUNLAK_RECORD_LENGTH(in[4], in[6 + in[4]] + 256 * in[7 + in[4]]);
    for (int i = 1; answer == BEYUNLAK_ACCEPTED && i + 2 < count; i += 3) {
        const uint32_t event = (uint32_t)atoi(words[i]);
        memcpy(in, out, length);
        answer = beyunlak_commit(in, length, in[5 + event], event, (uint32_t)atoi(words[i + 1]), (uint32_t)atoi(words[i + 2]), out, sizeof out);
    }
    if (answer == BEYUNLAK_ACCEPTED) fwrite(out, 1, length, stdout);
    return (int)answer;
}
HOST
gcc -std=c99 -Wall -Wextra -Werror -pedantic -Iinclude "$work/record.c" "$library" -o "$work/record"
good $? 'a host that writes records'

# a device's view of the record on standard input, as lines
cat >"$work/viewer.c" <<'HOST'
#include <stdio.h>
#include <stdlib.h>
#include "beyunlak.h"
static unsigned get(const uint8_t *at) { return (unsigned)at[0] | (unsigned)at[1] << 8 | (unsigned)at[2] << 16 | (unsigned)at[3] << 24; }
int main(int count, char **words) {
    static uint8_t record[BEYUNLAK_RECORD_MAX + 1], view[BEYUNLAK_VIEW_MAX];
    size_t length = fread(record, 1, sizeof record, stdin);
    uint32_t answer = beyunlak_view(record, length, (uint32_t)atoi(words[count - 1]), view, sizeof view);
    for (int k = 0; answer == BEYUNLAK_ACCEPTED && k < view[0]; k++) {
        const uint8_t *event = view + BEYUNLAK_VIEW_LENGTH(k);
        printf("%u %u..%u %s\n", event[0], get(event + 2), get(event + 6), event[1] ? "committed" : "free");
    }
    return (int)answer;
}
HOST
gcc -std=c99 -Wall -Wextra -Werror -pedantic -Iinclude "$work/viewer.c" "$library" -o "$work/viewer"
good $? 'a host that shows views'

# written NAME TICKET WORDS LENGTH WANTED: how the record after these commitments is shown: its length, and the lines below the ticket
written() {
    # shellcheck disable=SC2086
    "$work/record" $3 <"$2" >"$work/made"
    good $? "commitments on $1: $3"
    tools/ticket show "$work/made" >"$work/shown"
    { head -n 1 "$work/shown"; sed -n '/^# window/,$p' "$work/shown"; } >"$work/got"
    printf '# record, %s bytes/%s\n' "$4" "$5" | tr '/' '\n' >"$work/wanted"
    same "show the record after commitments on $1: $3" "$work/wanted" "$work/got"
    tools/ticket encode "$work/shown" "$work/again"
    same "the ticket of the record after commitments on $1: $3" "$2" "$work/again"
    # what `show --as` prints of it is what the library shows
    for device in 0 1 2 3 4; do
        tools/ticket show "$work/made" --as $device | sed -n 's/^# window e//p' >"$work/got"
        "$work/viewer" $device <"$work/made" >"$work/wanted"
        good $? "device $device's view after commitments on $1: $3"
        same "show --as $device after commitments on $1: $3" "$work/wanted" "$work/got"
    done
}
written P1 examples/tickets/p1.ticket '' 78 "$free_shown$(counted 0 0 0 0 0)"
written P1 examples/tickets/p1.ticket '1 6 10 1 10 10 2 10 12' 78 "$both_shown$(counted 2 0 1 0 0)"
bytes '09000000 0500 00 01 02 03 04 0000' >"$work/each"
written 'a ticket of every device' "$work/each" '5 0 0 2 0 9 5 0 0 3 1 1 5 0 0' 72 \
    "# window e1 0..9 free/# window e2 0..9 committed/# window e3 1..1 committed/# window e4 0..9 free/# window e5 0..0 committed/# committed events 3, total 45$(counted 0 1 1 0 3)"
# where events of the session's plan commit to their whole windows, nothing can grow
written 'the session' examples/tickets/session.ticket '4 540 590 1 30 200 4 540 590 8 850 850 9 850 850 6 645 645 8 850 850 4 540 590' 208 \
    "# window e1 30..200 committed/# window e2 15..535 free/# window e3 250..490 free/# window e4 540..590 committed/# window e5 630..630 free/# window e6 645..645 committed/# window e7 650..790 free/# window e8 850..850 committed/# window e9 850..850 committed/# committed events 5, total 1500$(counted 3 1 1 1 2)"

# sized NAME SCRIPT WORD..: what an example host prints for P1 after this change to the length of its outputs
sized() {
    sed "$2" "examples/$1.c" >"$work/sized.c"
    gcc -std=c99 -Wall -Wextra -Werror -pedantic -Iinclude "$work/sized.c" "$library" -o "$work/sized"
    good $? "examples/$1.c with '$2'"
    shift 2
    "$work/sized" "$@" <examples/tickets/p1.ticket >"$work/got"
}
sized host 's/BEYUNLAK_RECORD_MAX/1958/'
same 'examples/host.c, outputs of 1,958 bytes' examples/host.expected "$work/got"
sized host 's/BEYUNLAK_RECORD_MAX/1957/'
echo 'planning refused: 10, output too short' >"$work/wanted"
same 'examples/host.c, outputs of 1,957 bytes' "$work/wanted" "$work/got"
sized host 's/next.BEYUNLAK_RECORD_MAX/next[1957/'
{ head -n 4 examples/host.expected; echo 'event 1 at 6..10 refused: 10, output too short'; } >"$work/wanted"
same 'examples/host.c, one output of 1,957 bytes' "$work/wanted" "$work/got"
# shellcheck disable=SC2086
sized commit 's/BEYUNLAK_RECORD_MAX/1958/' $p1_run_words
printf '%s\n' "$p1_run" | tr '/' '\n' >"$work/wanted"
same 'examples/commit.c, outputs of 1,958 bytes' "$work/wanted" "$work/got"
sized commit 's/^ *BEYUNLAK_RECORD_MAX/1957/' 2 2 9 9 0 1 10 10 5 1 10 10
printf '%s\n' "$p1_plan/commit 2 2 9 9/refused 10/commit 0 1 10 10/refused 10/commit 5 1 10 10/refused 10" | tr '/' '\n' >"$work/wanted"
same 'examples/commit.c, commitments with outputs of 1,957 bytes' "$work/wanted" "$work/got"
sized view 's/BEYUNLAK_VIEW_MAX/402/'
printf '%s\n' "$p1_views" | tr '/' '\n' >"$work/wanted"
same 'examples/view.c, an output of 402 bytes' "$work/wanted" "$work/got"
sized view 's/BEYUNLAK_VIEW_MAX/401/'
for device in 0 1 2 3 4; do printf 'view %s\nrefused 10\n' $device; done >"$work/wanted"
same 'examples/view.c, an output of 401 bytes' "$work/wanted" "$work/got"

for room in 'mended.BEYUNLAK_TICKET_MAX|mended[1584|dropped' 'mended.BEYUNLAK_TICKET_MAX|mended[1583|refused 10' \
    'BEYUNLAK_DROPPED_MAX|514|dropped' 'BEYUNLAK_DROPPED_MAX|513|refused 10'; do
    sized mend "s|${room%|*}|" "$work/made"
    echo "${room##*|}" >"$work/wanted"
    same "examples/mend.c with '${room%|*}'" "$work/wanted" "$work/got"
done

for room in '362|part 0 30/1 5 15' '361|refused 10'; do
    sized part "s/BEYUNLAK_PART_MAX/${room%%|*}/" 0
    printf '%s\n' "${room#*|}" | tr '/' '\n' >"$work/wanted"
    same "examples/part.c, an output of ${room%%|*} bytes" "$work/wanted" "$work/got"
done

# a ticket is refused with 9 exactly where it has a ring, and has a plan where the reason is 17
while IFS='|' read -r number name wanted; do
    plan=$("$planner" <"$work/$number.ticket" | head -n 1)
    case $wanted in
    at*) wanted='refused 9' ;;
    'refused 17') wanted=plan plan=${plan%% *} ;;
    'refused 16') continue ;;
    esac
    if [ "$plan" = "$wanted" ]; then pass; else fail "plan and reason of $name"; fi
done <"$work/reasons"

# mending drops a rule exactly where there is a ring, leaves a ticket that has a plan, and refuses as planning does
while IFS='|' read -r number name wanted; do
    got=$("$work/mend" "$work/mended" <"$work/$number.ticket")
    plan=$("$planner" <"$work/mended" | head -n 1)
    case $wanted in
    at*) case $got/$plan in 'dropped '*/plan*) pass ;; *) fail "mend $name" ;; esac ;;
    'refused 17') if [ "$got" = dropped ]; then pass; else fail "mend $name"; fi
        same "$name mended" "$work/$number.ticket" "$work/mended" ;;
    'refused 16') continue ;;
    *) if [ "$got" = "$wanted" ]; then pass; else fail "mend $name"; fi ;;
    esac
done <"$work/reasons"

# mends NAME TEXT NUMBERS: the rules that are dropped from the text's ticket; what the tool then prints stands for the
# mended ticket's bytes, which have a plan
mends() {
    printf '%s\n' "$2" | tr '/' '\n' >"$work/text"
    tools/ticket encode "$work/text" "$work/ticket"
    # shellcheck disable=SC2086
    echo dropped $3 >"$work/wanted"
    "$work/mend" "$work/mended" <"$work/ticket" >"$work/got"
    same "mend $1" "$work/wanted" "$work/got"
    tools/ticket mended "$work/text" "$work/got" >"$work/mended.txt"
    tools/ticket encode "$work/mended.txt" "$work/made"
    same "$1 as text" "$work/mended" "$work/made"
    "$planner" <"$work/mended" | grep -q '^plan '
    good $? "$1 mended, and planned"
}
while IFS='|' read -r name text numbers; do
    mends "${name% }" "${text# }" "$numbers"
done <<'MENDS'
all rules kept | horizon 9/event a stage/event b lamps/between a and b: 1..9 |
the last of a ring | horizon 9/event a stage/event b lamps/event c camera/rule a to b: -1/rule b to c: -1/rule c to a: 1 | 3
beyond the session | horizon 9/event a stage/between start and a: 10..12/between a and start: 1..2 | 2 4
every rule | horizon 9/event a stage/rule start to a: -1/rule a to start: -10 | 1 2
rules after a dropped one | horizon 9/event a stage/event b lamps/between start and a: 2..3/between a and b: 7..8/between start and b: 4..8 | 5
two rings that share a rule | horizon 9/event a stage/event b lamps/event c camera/rule a to b: -3/rule b to a: 2/rule b to c: 1/rule c to a: 1/rule b to a: 3 | 2 4
by way of the horizon | horizon 9/event a stage/event b lamps/event c camera/between a and b: 5../between b and c: 5../between a and c: ..9 | 2
a horizon of 0 | horizon 0/event a stage/event b lamps/between a and b: 1..2/between a and b: 0..0 | 2
MENDS

# a ticket that is too long, and files that cannot be written
printf 'refused 8\n' >"$work/wanted"
head -c 1048576 /dev/zero | "$work/mend" "$work/mended" >"$work/got"
same 'mend a megabyte of zeros' "$work/wanted" "$work/got"
for file in "$work/none/mended" "$work" /dev/full; do
    "$work/mend" "$file" <examples/tickets/p1.ticket >"$work/got" 2>"$work/errors"
    if [ $? -eq 2 ] && [ ! -s "$work/got" ] && [ -s "$work/errors" ]; then pass; else fail "mend to '$file'"; fi
done

# each part's total is the one that the program prints under the plan and under the latest plan
for ticket in examples/tickets/*.ticket; do
    for device in 0 1 2 3 4; do "$work/part" $device <"$ticket"; done | awk '$1 == "part" { line = line " " $3 } END { if (line) print substr(line, 2) }' >"$work/wanted"
    for word in '' latest; do
        "$planner" $word <"$ticket" | awk 'NF == 5' >"$work/got"
        same "the totals of the parts of $ticket${word:+, }$word" "$work/wanted" "$work/got"
    done
done
# parts are refused as plans are
while IFS='|' read -r number name wanted; do
    plan=$("$planner" <"$work/$number.ticket" | head -n 1)
    part=$("$work/part" 3 <"$work/$number.ticket" | head -n 1)
    case $plan in plan*) part=${part%% *} plan=part ;; esac
    if [ "$part" = "$plan" ]; then pass; else fail "plan and part of $name"; fi
done <"$work/reasons"
printf 'refused 8\n' >"$work/wanted"
head -c 1048576 /dev/zero | "$work/part" 0 >"$work/got"
same 'part of a megabyte of zeros' "$work/wanted" "$work/got"

# files: the ticket named, files that are too long, files that are not there
cp examples/tickets/p7-impossible.ticket "$work/ticket"
tools/ticket encode $p7 "$work/made" "$work/labels"
printf 'at last stage\nby 1 -11\nat start\nby 3 10\n' >"$work/wanted"
"$work/reason" "$work/labels" examples/roster.names "$work/ticket" <&- >"$work/got"
same 'reason of a ticket that is named' "$work/wanted" "$work/got"
head -c 1048576 /dev/zero >"$work/zeros"
printf 'refused 8\n' >"$work/wanted"
"$work/reason" "$work/labels" examples/roster.names "$work/zeros" >"$work/got"
same 'reason of a megabyte of zeros' "$work/wanted" "$work/got"
{ bytes 0100; bytes 0161 340; } >"$work/long"
printf 'refused 16\n' >"$work/wanted"
"$work/reason" "$work/long" examples/roster.names "$work/ticket" >"$work/got"
same 'reason with labels that are too long' "$work/wanted" "$work/got"
{ cat examples/roster.names; bytes 61 1000; } >"$work/long"
"$work/reason" "$work/labels" "$work/long" "$work/ticket" >"$work/got"
same 'reason with a roster that is too long' "$work/wanted" "$work/got"
for words in '' "$work/labels" "$work/none examples/roster.names" "$work/labels $work/none" "$work/labels examples/roster.names $work" \
    "$work/labels examples/roster.names $work/ticket $work/ticket"; do
    # shellcheck disable=SC2086
    "$work/reason" $words <"$work/ticket" >"$work/got" 2>"$work/errors"
    if [ $? -eq 2 ] && [ ! -s "$work/got" ] && [ -s "$work/errors" ]; then pass; else fail "reason called with '$words'"; fi
done

# makes TARGET NAME WANTED STATUS WORD..: what make prints with these words, the library as it is; / stands for a line end
mkdir -p target
makes() {
    target=$1 name=$2 wanted=$3 status=$4
    shift 4
    printf '%s\n' "$wanted" | tr '/' '\n' >"$work/wanted"
    make -s -o library "$target" ARCHIVE="$library" "$@" >"$work/got" 2>"$work/errors"
    good $(($? != status)) "make $target, $name: exit status"
    if [ "$status" -ne 0 ]; then grep -v '^make' "$work/errors" >"$work/got"; fi
    same "make $target, $name" "$work/wanted" "$work/got"
}
makes reason 'no ticket named' "$p6_told" 0
makes reason 'P6' "$p6_told" 0 TICKET=$p6
makes reason 'P7' "$p7_told" 0 TICKET=$p7
makes reason 'README' "$my_told" 0 TICKET="$work/my.txt"
echo a b c d e | tools/ticket list - "$work/roster"
makes reason 'another roster' "$(echo "$p7_told" | sed 's/stage/d/')" 0 TICKET=$p7 ROSTER="$work/roster"
makes reason 'P1' 'refused 17: there are times that keep all rules, so the ticket can be planned' 2 TICKET=$p1
makes reason 'a wrong roster' 'refused 16: a list of names breaks its layout' 2 TICKET=$p7 ROSTER="$work/labels"
makes mend 'no ticket named' "$p6_mended" 0
makes mend 'P7' "$p7_mended" 0 TICKET=$p7
makes mend 'P1' "$p1_mended" 0 TICKET=$p1
makes mend 'docs/TEXT-FORM.md' "$turned_mended" 0 TICKET="$work/turned.txt"
makes mend 'README' "$my_mended" 0 TICKET="$work/my.txt"
first_plan='plan 2 450/1 2 0 0/2 0 50 200/1650 0 550 0 0'
tools/ticket encode "$work/got" "$work/made"
same 'target/mended' "$work/made" target/mended
"$planner" <target/mended >"$work/got"
printf '%s\n' "$first_plan" | tr '/' '\n' >"$work/wanted"
same 'the plan of the mended ticket of README.md' "$work/wanted" "$work/got"
session_part='camera alone: total 570/  exposure1  50..50/  exposure2 110..300'
makes part 'nothing named' 'camera alone: total 30/  shutter 5..15' 0
makes part 'lamps' 'lamps alone: total 11/  flash 8..19' 0 DEVICE=lamps
makes part 'a number' 'lamps alone: total 11/  flash 8..19' 0 DEVICE=2
makes part 'a device without events' 'filter-wheel alone: total 0, no events' 0 DEVICE=filter-wheel
makes part 'docs/TEXT-FORM.md' "$session_part" 0 TICKET=$session
makes part 'the database' 'database alone: total 0/  stored1  90..90/  stored2 170..170' 0 TICKET=$session DEVICE=database
makes part 'P7 refused' 'refused 9: no times keep all rules' 2 TICKET=$p7 DEVICE=stage
DEVICE=lamps makes part 'DEVICE in the environment' 'camera alone: total 30/  shutter 5..15' 0
for word in wheel 5 'camera lamps' '0; echo x' "camera'" '"0"' "\`echo 0\`" '*' ''; do
    makes part "the device '$word'" "device '$word': $no_device" 2 DEVICE="$word"
done
makes table 'no ticket named' "$p1_told" 0
makes table 'P4' "$p4_told" 0 TICKET=$p4
makes table 'P7 refused' 'refused 9: no times keep all rules' 2 TICKET=$p7
makes table 'no ticket named, stops' "$p1_stops_told" 0 STOPS=1
makes table 'P4, stops' "$p4_stops_told" 0 TICKET=$p4 STOPS=1
makes table 'P7 refused, stops' 'refused 9: no times keep all rules' 2 TICKET=$p7 STOPS=1
STOPS=1 makes table 'STOPS in the environment' "$p1_told" 0
for word in 0 2 yes 11; do
    make -s -o library table ARCHIVE="$library" STOPS=$word >"$work/got" 2>"$work/errors"
    if [ $? -eq 2 ] && [ ! -s "$work/got" ] && grep -q "STOPS=$word: it is 1 or left out" "$work/errors"; then pass; else fail "make table STOPS=$word"; fi
done

# the ticket of README.md, before its fifth line comes
head -n 4 "$work/my.txt" >"$work/first.txt"
first_part='camera alone: total 1650/  exposure 50..600'
makes part 'README' "$first_part" 0 TICKET="$work/first.txt" DEVICE=camera
first_latest='plan 2 450/1 2 400 400/2 0 450 600/1650 0 550 0 0'
first_explained='accepted: 2 events, total 450/event 1, lamps: any tick from 0 to 0/event 2, camera: any tick from 50 to 200/each device alone: camera 1650, filter-wheel 0, lamps 550, stage 0, database 0'
tools/ticket encode "$work/first.txt" | "$planner" | tools/ticket explain >"$work/got"
printf '%s\n' "$first_explained" | tr '/' '\n' >"$work/wanted"
same 'explain the plan of README.md' "$work/wanted" "$work/got"
tools/ticket encode "$work/first.txt" | "$planner" latest >"$work/got"
printf '%s\n' "$first_latest" | tr '/' '\n' >"$work/wanted"
same 'the latest plan of README.md' "$work/wanted" "$work/got"
first_told='plan: total 450, none accepted/  lamps-on   0..0/  exposure  50..200/exposure commits 100..150: total 200, accepted camera 1/  lamps-on   0..50/  exposure 100..150 committed/exposure commits 120..120: total 70, accepted camera 2/  lamps-on   0..70/  exposure 120..120 committed/lamps-on commits 20..20: total 0, accepted camera 2, lamps 1/  lamps-on  20..20  committed/  exposure 120..120 committed'
first_by='exposure 10s..15s, exposure 12s..12s, lamps-on 2s..2s'
p1_by='shutter 6..10, shutter 1s..1s, shutter 9..9, shutter 10..10 as lamps, flash 10..12'
makes commit 'no ticket named' "$p1_twice_told" 0
makes commit 'docs/TEXT-FORM.md' "$p1_run_told" 0 BY="$p1_by"
makes commit 'README' "$first_told" 0 TICKET="$work/first.txt" BY="$first_by"
makes commit 'nothing' 'plan: total 18, none accepted/  shutter 5..11/  flash   9..9' 0 BY=
makes commit 'no events' 'plan: total 0, none accepted' 0 TICKET=examples/tickets/p8.txt BY=
makes commit 'the same window' 'plan: total 0, none accepted/  last 10..10/last commits 10..10: total 0, accepted stage 1/  last 10..10 committed/last commits 10..10: total 0, accepted stage 2/  last 10..10 committed' 0 \
    TICKET=examples/tickets/p7.txt BY='last 10..10, last 10..10'
makes commit 'all refused' "plan: total 0, none accepted/  last 10..10/last commits 9..10: $p1_outside" 0 TICKET=examples/tickets/p7.txt BY='last 9..10'
makes commit 'P7 refused' 'refused 9: no times keep all rules' 2 TICKET=$p7 BY='last 10..10'
BY='flash 8..8' makes commit 'BY in the environment' "$p1_twice_told" 0
makes commit 'by another device' "plan: total 0, none accepted/  last 10..10/last commits 10..10 as database: $not_own/last commits 10..10: total 0, accepted stage 1/  last 10..10 committed" 0 \
    TICKET=examples/tickets/p7.txt BY='last 10..10 as database, last 10..10 as stage'
first_seen='plan/  camera: exposure 50..200/  filter-wheel: no events/  lamps: lamps-on 0..0/  stage: no events/  database: lamps-on 0..0, exposure 50..200/exposure commits 100..150/  camera: exposure 100..150 committed/  filter-wheel: no events/  lamps: lamps-on 0..50/  stage: no events/  database: lamps-on 0..50, exposure 100..150 committed'
makes view 'docs/TEXT-FORM.md' "$p1_seen_told" 0 BY='shutter 10..10'
makes view 'README' "$first_seen" 0 TICKET="$work/first.txt" BY='exposure 10s..15s'
makes view 'README, by another device' "$(echo "$first_seen" | sed 's,/exposure commits.*,,')/exposure commits 100..150 as lamps: $not_own" 0 TICKET="$work/first.txt" BY='exposure 10s..15s as lamps'
makes view 'P1' "$p1_views_run_told" 0 BY='shutter 10..10, shutter 10..10 as lamps, flash 9..12'
makes view 'nothing' "$p1_views_told" 0 BY=
makes view 'P7 refused' 'refused 9: no times keep all rules' 2 TICKET=$p7 BY='last 10..10'
for target in commit view; do
    for by in 'shuter 6..10' 'shutter 6' 'flash 8..9 flash 8..8' 'shutter 6..10; echo x' "shutter 6..10'" 'shutter "6..10"' "shutter \`echo 6\`..10" '*' 'flash 9..9 as flash' 'flash 9..9 as 5'; do
        make -s -o library $target ARCHIVE="$library" BY="$by" >"$work/got" 2>"$work/errors"
        if [ $? -eq 2 ] && [ ! -s "$work/got" ] && grep -q -F "commitment '$by': " "$work/errors"; then pass; else fail "make $target BY=$by"; fi
    done
done

# stands FILE TOLD: what a command prints stands in the document, four spaces in
stands() {
    printf '%s\n' "$2" | tr '/' '\n' | sed 's/^/    /' >"$work/wanted"
    python3 -c 'import sys; sys.exit(open(sys.argv[2]).read() not in open(sys.argv[1]).read())' "$1" "$work/wanted"
    good $? "$1 has another text than '${2%%/*} ..'"
}
stands README.md "$my_told"
stands README.md "\$ make -s plan TICKET=my.txt | tail -n 4/$first_plan"
stands README.md "\$ make -s latest TICKET=my.txt | tail -n 4/$first_latest"
stands README.md "$first_explained"
stands README.md "\$ make -s part TICKET=my.txt DEVICE=camera | tail -n 2/$first_part"
stands README.md "\$ make -s mend TICKET=my.txt | tail -n 7/$my_mended"
stands README.md "\$ make -s plan TICKET=mended.txt | tail -n 4/$first_plan"
stands README.md "\$ make -s commit TICKET=my.txt BY=\"$first_by\" | tail -n 12/$first_told"
stands README.md "\$ make -s view TICKET=my.txt BY=\"exposure 10s..15s\" | tail -n 12/$first_seen"
stands README.md "$p1_told"
stands README.md "$p1_stops_told"
stands docs/TEXT-FORM.md "\$ make -s commit BY=\"$p1_by\" | tail -n 14/$p1_run_told"
stands docs/TEXT-FORM.md "\$ make -s view BY=\"shutter 10..10\" | tail -n 12/$p1_seen_told"
stands docs/TEXT-FORM.md "$lamps_view"
stands docs/TEXT-FORM.md "$both_shown$(counted 2 0 1 0 0)"
stands docs/TEXT-FORM.md "$p4_ending"
stands docs/TEXT-FORM.md "$p6_told"
stands docs/TEXT-FORM.md "$p7_told"
stands docs/TEXT-FORM.md "$(sed -n 3,6p $p6 | tr '\n' '/')$p6_dropped"
stands docs/TEXT-FORM.md "\$ make -s mend TICKET=my.txt | tail -n 8/$turned_mended"
stands docs/TEXT-FORM.md '$ make -s plan | tail -n 4/plan 2 18/1 0 5 11/2 2 9 9/30 0 11 0 0'
stands docs/TEXT-FORM.md "$session_part"

gcc -std=c99 -Wall -Wextra -Werror -pedantic -Iinclude "$here/doors.c" "$library" -o "$work/doors" && "$work/doors" >"$work/got"
good $? 'tests/programs/doors.c'
while read -r verdict name; do
    if [ "$verdict" = ok ]; then pass; else fail "doors: $name"; fi
done <"$work/got"

# a host without a C library brings these two, and nothing more is asked of it
printf 'memcpy\nmemset\n' >"$work/wanted"
nm -u "$library" | sed -n 's/^ *U //p' | sort -u >"$work/got"
same 'what the library needs from outside' "$work/wanted" "$work/got"

for program in host 'doors short' table 'table stops' "commit $p1_run_words" "view $p1_run_words" 'record 1 6 10 2 8 8' 'mend /dev/null' 'part 0' 'part 1'; do
    # shellcheck disable=SC2086
    valgrind -q --error-exitcode=9 --leak-check=full "$work/"$program <examples/tickets/p1.ticket >/dev/null 2>"$work/errors"
    good $? "$program under valgrind"
    if [ -s "$work/errors" ]; then fail "$program under valgrind: errors"; head -n 20 "$work/errors"; else pass; fi
done
valgrind -q --error-exitcode=9 --leak-check=full "$work/reason" "$work/labels" examples/roster.names "$work/ticket" >/dev/null 2>"$work/errors"
good $? 'reason under valgrind'
if [ -s "$work/errors" ]; then fail 'reason under valgrind: errors'; head -n 20 "$work/errors"; else pass; fi

# ---- the sizes of arrays

# what tools/arrays says of a copy of the code and the documents in which a file is edited: nothing, or the failure that is
# named last
mkdir "$work/tree"
tar -cf - crates.txt crates/*/src docs | tar -xf - -C "$work/tree"
arrays=$PWD/tools/arrays
while IFS='|' read -r name file edit wanted; do
    mv "$work/tree/$file" "$work/kept"
    sed "$edit" "$work/kept" >"$work/tree/$file"
    # an edit whose text is gone would show nothing
    if [ -n "$edit" ] && cmp -s "$work/kept" "$work/tree/$file"; then fail "arrays, $name: the edit changes nothing"; fi
    (cd "$work/tree" && "$arrays") >"$work/got" 2>&1
    status=$?
    mv "$work/kept" "$work/tree/$file"
    good $((status != (${#wanted} > 0))) "arrays, $name: exit status"
    if [ -z "$wanted" ]; then grep -q '^[1-9][0-9]* passed, 0 failed$' "$work/got"; else grep -q "^FAILED $wanted$" "$work/got"; fi
    good $? "arrays, $name"
done <<'ARRAYS'
as they are|crates.txt||
401 bytes below plan|crates/edge/src/lib.rt|$a const WIDE: [u8; 401] = [0u8; 401];|crates/edge/src/lib.rt:[0-9]*: an array of 401 numbers, above 400
401 bytes beside plan|crates/part_network/src/lib.rt|$a const WIDE: [u8; 401] = [0u8; 401];|
a parameter of 401 bytes|crates/ticket/src/lib.rt|s/owners: &\[u8; Ticket::EVENTS\],/owners: \&[u8; Ticket::EVENTS + 361],/|crates/ticket/src/lib.rt:[0-9]*: an array of 401 numbers, above 400
20 arrays of 21 numbers|crates/flow/src/lib.rt|s/let none = \[0u32; 81\];/&let more = [[0u32; 21]; 20];/|crates/flow/src/lib.rt:[0-9]*: an array whose size is not told
a size that is not told|crates/flow/src/lib.rt|s/let none = \[0u32; 81\];/&let more = [0u32; MORE];/|crates/flow/src/lib.rt:[0-9]*: an array whose size is not told
a comment and a contract|crates/edge/src/lib.rt|s/^    requires \([a-z0-9_]* \)\?{.*/&  requires { [0; 500] } \/\/ [0u32; 500]/|
a crate more below plan|crates.txt|s/^causes: /&part_windows /|crates/part_windows/src/lib.rt:[0-9]*: an array of 7,364 numbers, above 400
an array that is not in the table|docs/WHAT-IS-PROVED.md|s/81 in `weight`; \(400 in `tails`\)/\1/|docs/WHAT-IS-PROVED.md: no row | `windows` | `widest` | 81 in `weight`; 400 in `tails`, `heads` |
an array that is not in the code|docs/WHAT-IS-PROVED.md|s/256 in `bounds`/&, `more`/|docs/WHAT-IS-PROVED.md: not what the code has: | `mirror` | `mirror_bounds` | 256 in `bounds`, `more` |
less scratch|crates/causes/src/lib.rt|s/^const SCRATCH: usize = 2400;/const SCRATCH: usize = 2399;/|docs/WHAT-IS-PROVED.md: no row | the caller.s | `scratch`, lent | at least 2,399 .*
ARRAYS

printf '%d passed, %d failed\n' "$passed" "$failed"
[ "$failed" -eq 0 ]
