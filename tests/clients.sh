#!/usr/bin/env bash
# Runs the built program's `serve`, whose clients are running: each a process of its own that comes in over two named pipes.
#
#   tests/clients.sh
#
# WAREHOUSE names another program than ./warehouse, which builds it where it has to be built.
set -u
source "$(dirname -- "${BASH_SOURCE[0]}")/counting.sh"
begin_with_program
service= form=full most=
trap '[[ -n $service ]] && kill -9 "$service" 2> /dev/null; rm -rf -- "$scratch"' EXIT

# Folders with two pipes each, and no log: nothing of a run before.
#   afresh FOLDER..
afresh() {
    local folder
    rm -rf -- "$scratch"/log* "$scratch"/c?
    for folder in "$@"; do
        mkdir -m 700 -- "$scratch/$folder"
        mkfifo -m 600 -- "$scratch/$folder/in" "$scratch/$folder/out"
    done
}

# Begins a service, which goes on in the background. Where `most` is set no file of it may have more kilobytes.
#   begin WORDS..
begin() {
    (
        # refused, as by a disk that is full, and not ended by a signal
        [[ -n $most ]] && trap '' XFSZ && ulimit -f "$most"
        exec "$warehouse" serve --log "$scratch/log" --replies "$form" "$@"
    ) < "$scratch/site" > "$scratch/told" 2> "$scratch/errors" &
    service=$!
}

# Waits for so many seconds at most until the service has ended. `how` is its status, or that it goes on; then it is killed.
#   ended SECONDS
ended() {
    local left=$(($1 * 20))
    while kill -0 "$service" 2> /dev/null && ((left-- > 0)); do
        sleep 0.05
    done
    if kill -0 "$service" 2> /dev/null; then
        kill -9 "$service"
        wait "$service" 2> /dev/null
        how='goes on'
    else
        wait "$service"
        how=$?
    fi
    service=
}

# Ends the service by a signal, as a want of power or of memory may.
killed() {
    kill -9 "$service"
    wait "$service" 2> /dev/null
    service=
}

# What a client is told that sends these lines, each line with a semicolon behind it.
#   client FOLDER LINE..
client() {
    local folder=$1
    shift
    printf '%s\n' "$@" | timeout 20 ../tools/client.py "$scratch/$folder" --wait 10 | tr '\n' ';'
}

# A client that does what a program of Python does with its connection, `c`.
#   peer FOLDER PROGRAM
peer() {
    timeout 30 python3 - "$scratch/$1" "$2" << 'END'
import os, signal, sys, time
sys.path.insert(0, '../python')
from warehouse.folder import Broken, Connection
signal.alarm(20)
exec(sys.argv[2], {'c': Connection(sys.argv[1]), 'Broken': Broken, 'os': os, 'signal': signal, 'time': time})
END
}

# What `verify` says of a log.
verified() {
    { cat -- "$scratch/site"; echo %%; cat -- "$1"; } | "$warehouse" verify
}

# A service that has ended well: its log is what `verify` takes, and it printed nothing.
#   judge_log NAME ENTRIES
judge_log() {
    judge "$1: status" "$how" 0
    judge "$1: log" "$(verified "$scratch/log")" "run $2"
    judge "$1: nothing told" "$(wc -c < "$scratch/told")" 0
}

# Waits until the log has so many such lines, 20 seconds at most.
#   log_has COUNT PATTERN
log_has() {
    local k
    for ((k = 0; k < 400; k++)); do
        [[ -e $scratch/log ]] && (($(grep -c -- "$2" "$scratch/log") >= $1)) && return
        sleep 0.05
    done
}

# The replies of a caller's entries in the log.
#   replies CALLER
replies() {
    sed -n "s/^$1 .* = //p" "$scratch/log" | tr '\n' ';'
}

# What is printed where `serve` does not begin, and which files there are then: standard output, standard error, status, files.
#   refused INPUT WORDS..
refused() {
    local input=$1 status
    shift
    timeout 20 "$warehouse" serve "$@" < "$input" > "$scratch/stdout" 2> "$scratch/stderr"
    status=$?
    echo "$(cat "$scratch/stdout")|$(cat "$scratch/stderr")|$status|$(cd -- "$scratch" && echo log*)"
}

# the map and the points, and no separator behind them: the clients come in elsewhere
awk '/^%%\r?$/ && ++cut == 2 { exit } { print }' replay/one_delivery > "$scratch/site"

# three clients at once, each with its own replies; who comes again is told how many entries are its own
afresh c0 c1 c2
begin --client "0=$scratch/c0:all" --client "1=$scratch/c1" --client "7=$scratch/c2:submit,token,tick"
client c1 'submit x A B' 'submit x B C' 'nonsense' '# nothing' 'submit x A Z' > "$scratch/said1" &
workers=($!)
client c2 'token 9' 'submit y C D' 'tick' 'tick' > "$scratch/said2" &
workers+=($!)
said=$(client c0 'tick' 'token 5' 'tick')
wait "${workers[@]}"
judge 'client 0' "$said" "entries 0;$(replies 0)"
told=$(replies 1)
judge 'client 1' "$(< "$scratch/said1")" "entries 0;${told/refused E1/refused C1;refused E1}"
judge 'client 7' "$(< "$scratch/said2")" "entries 0;$(replies 7)"
judge 'client 1, again' "$(client c1 'submit x D A')" 'entries 3;accepted 3;'
judge 'client 0, again' "$(client c0 'replace 0' 'close')" 'entries 3;refused E10;closed;'
ended 5
judge_log 'three clients' 13
judge 'three clients: nothing else to be told' "$(< "$scratch/errors")" ''

# who is killed within a line leaves no entry of it, and may come again
afresh c0 c1
begin --client "0=$scratch/c0:all" --client "1=$scratch/c1"
for torn in 'submit x C D' 'sub' 'submit x C D\nsubmit x D'; do
    peer c1 "c.ask(b'submit x A B'); c.send(b'$torn'); os.kill(os.getpid(), signal.SIGKILL)" 2> /dev/null
done
# the line before the torn one of the third has an entry, whether its reply was read or not
judge 'after three torn lines' "$(client c1 'submit x B A')" 'entries 4;accepted 4;'
judge 'torn lines are told of' "$(grep -c '^client 1: ' "$scratch/errors")" 3
client c0 close > /dev/null
ended 5
judge_log 'torn lines' 6

# one that never reads, one that never comes, one that never sends: the service ends all the same
afresh c0 c1 c2 c3
begin --client "0=$scratch/c0:all" --client "1=$scratch/c1" --client "2=$scratch/c2" --client "3=$scratch/c3"
peer c1 "
try:
    while True:
        c.send(b'token 0\n' * 1000)
except Broken:
    pass" &
peer c3 "c.read()" 2> /dev/null &
sleep 1
judge 'beside one that never reads' "$(client c0 'submit x A B' close)" 'entries 0;accepted 0;closed;'
ended 8
judge_log 'one that never reads' 2
wait

# pipes that are gone are tried again, which is told once, and hold the end up for nobody
gone() {
    peer "$1" "c.ask(b'submit x A B'); os.remove(c.folder + '/in'); os.remove(c.folder + '/out')"
}
afresh c0 c1
begin --client "0=$scratch/c0:all" --client "1=$scratch/c1"
gone c1
sleep 2.5
judge 'pipes that are gone' "$(< "$scratch/errors")" 'client 1: its pipes cannot be opened'
mkfifo -m 600 -- "$scratch/c1/in" "$scratch/c1/out"
judge 'pipes that are there again' "$(client c1 'submit x A B')" 'entries 1;accepted 1;'
judge 'pipes that are told of' "$(sed 's/[1-9] tries/K tries/' "$scratch/errors")" \
    $'client 1: its pipes cannot be opened\nclient 1: its pipes are open again, K tries failed'
gone c1
client c0 close > /dev/null
ended 5
judge_log 'pipes that are gone' 4

# without a right, and beyond its share: no entry
afresh c0 c1
begin --journal 6 --client "0=$scratch/c0:close,tick" --client "1=$scratch/c1"
judge 'no right' "$(client c1 'token 0' 'tick' 'replace 0' 'close' 'submit x A B')" \
    'entries 0;refused C3;refused C3;refused C3;refused C3;accepted 0;'
judge 'a full share' "$(client c1 'submit x A B' 'submit x A B' 'submit x A B' 'tick')" \
    'entries 1;accepted 1;accepted 2;refused E11;refused C3;'
judge 'another share' "$(client c0 'submit x A B' 'tick' close)" 'entries 0;refused C3;clock 1 picked 0 dropped 0;closed;'
ended 5
judge_log 'rights and shares' 5

# gone on with, each client has a share again beside what it had
afresh c0 c1
words=(--journal 2 --client "0=$scratch/c0:all" --client "1=$scratch/c1")
begin "${words[@]}"
judge 'a share of one' "$(client c1 'submit x A B' 'submit x A B')" 'entries 0;accepted 0;refused E11;'
killed
begin "${words[@]}"
judge 'a share of one more' "$(client c1 'submit x A B' 'submit x A B')" 'entries 1;accepted 1;refused E11;'
client c0 close > /dev/null
ended 5
judge_log 'shares of two lives' 3
# a run that was closed is not served again
begin "${words[@]}"
ended 5
judge_log 'closed is closed' 3

# Whether a client was told what its entries say, in order, where a line whose reply was lost is said to stand. How many entries
# it has, and whether it came again.
#   told_as_kept CALLER LINES TOLD
told_as_kept() {
    python3 - "$@" "$scratch/log" << 'END'
import sys
caller, lines, told, log = sys.argv[1:]
with open(lines) as file:
    lines = file.read().splitlines()
with open(told) as file:
    told = file.read().splitlines()
kept = [line.split(' = ') for line in open(log).read().splitlines() if ' = ' in line and line.split(' ')[0] == caller]
lives = [line for line in told if line.startswith('entries ')]
told = [line for line in told if not line.startswith('entries ')]
for line, reply, (event, entry) in zip(lines, told, kept):
    if event != f'{caller} {line}' or reply not in (entry, f'lost: {line}'):
        sys.exit(print(f'{line}: told {reply}, kept {event} = {entry}'))
print(len(told), len(kept), 'again' if len(lives) > 1 else 'once')
END
}

# killed again and again while its clients are at work: they come again, and nothing that was told is lost
afresh c0 c1 c2
words=(--client "0=$scratch/c0:all" --client "1=$scratch/c1" --client "2=$scratch/c2")
{ echo 'token 0'; yes tick | head -n 999; } > "$scratch/lines0"
yes 'submit x A B' | head -n 1000 > "$scratch/lines1"
yes 'submit y C D' | head -n 1000 > "$scratch/lines2"
begin "${words[@]}"
workers=()
for k in 0 1 2; do
    timeout 60 ../tools/client.py "$scratch/c$k" --wait 20 < "$scratch/lines$k" > "$scratch/told$k" &
    workers+=($!)
done
for lines in 60 600 1500; do
    for ((k = 0; k < 2000; k++)); do
        [[ -e $scratch/log ]] && (($(wc -l < "$scratch/log") > lines)) && break
        sleep 0.01
    done
    killed
    begin "${words[@]}"
done
wait "${workers[@]}"
for k in 0 1 2; do
    judge "client $k of a service that was killed" "$(told_as_kept "$k" "$scratch/lines$k" "$scratch/told$k")" '1000 1000 again'
done
judge 'entries of all lives' "$(client c0 close)" 'entries 1000;closed;'
ended 5
judge_log 'three kills' 3001

# A service that was stopped: its status, that it says nothing more (but of a client that went away as it was greeted again), and that its log
# has no last line and only grew.
#   judge_stop NAME ENTRIES BEFORE
judge_stop() {
    judge "$1: status" "$how" 0
    judge "$1: nothing else told" "$(cat -- "$scratch/told" "$scratch/errors" | grep -v '^client [0-9]*: refused X3$')" ''
    judge "$1: no last line" "$(tail -n 1 -- "$scratch/log" | grep -c '^end')" 0
    judge "$1: log" "$({ cat -- "$scratch/log"; echo "end $2"; } > "$scratch/whole"; verified "$scratch/whole")" "run $2"
    judge "$1: it grew" "$(cmp -n "$(wc -c < "$3")" -- "$3" "$scratch/log" 2>&1)" ''
}

# stopped again and again while its clients are at work: what was taken is answered, nothing is lost and nothing doubled
afresh c0 c1 c2 c3
words=(--client "0=$scratch/c0:all" --client "1=$scratch/c1" --client "2=$scratch/c2" --client "3=$scratch/c3:stop")
: > "$scratch/before"
at_work=0
begin "${words[@]}"
workers=()
for k in 0 1 2; do
    timeout 60 ../tools/client.py "$scratch/c$k" --wait 20 < "$scratch/lines$k" > "$scratch/told$k" &
    workers+=($!)
done
# Waits until each of the three has so many entries, and asks for the stop.
stop_behind() {
    local k
    for k in 0 1 2; do
        log_has "$1" "^$k "
    done
    echo stop
}
for lines in 20 200 500; do
    # who stops is there before
    said=$(stop_behind "$lines" | timeout 60 ../tools/client.py "$scratch/c3" --wait 20 | tr '\n' ';')
    judge "stopped behind $lines" "$said" 'entries 0;stopped;'
    ended 5
    judge_stop "stopped behind $lines" "$(grep -c ' = ' "$scratch/log")" "$scratch/before"
    cp -- "$scratch/log" "$scratch/before"
    at_work=$((at_work + ($(grep -c ' = ' "$scratch/log") < 3000)))
    begin "${words[@]}"
done
wait "${workers[@]}"
judge 'stopped while they were at work' "$((at_work > 0))" 1
for k in 0 1 2; do
    judge "client $k of a service that was stopped" "$(told_as_kept "$k" "$scratch/lines$k" "$scratch/told$k" | cut -d ' ' -f 1,2)" '1000 1000'
    judge "client $k: each line that was taken is answered" "$(grep -c '^lost' "$scratch/told$k")" 0
done
judge 'entries of all stopped lives' "$(client c0 close)" 'entries 1000;closed;'
ended 5
judge_log 'three stops' 3001

# by its right alone, and it is no entry; lines behind it, and those of others from then on, are not served
afresh c0 c1 c2
words=(--client "0=$scratch/c0:all" --client "1=$scratch/c1" --client "2=$scratch/c2:tick,stop")
begin "${words[@]}"
judge 'no right to stop' "$(client c1 'submit x A B' 'stop' 'stop now')" 'entries 0;accepted 0;refused C3;refused C1;'
judge 'all is no right to stop' "$(client c0 'stop' 'tick')" 'entries 0;refused C3;clock 1 picked 0 dropped 0;'
judge 'what stands behind a stop' "$(peer c2 "
c.send(b'tick\n \t stop \ntick\n')
try:
    while True:
        print(c.read().decode().rstrip(), end=';')
except Broken:
    pass")" 'clock 2 picked 0 dropped 0;stopped;'
ended 5
judge_stop 'a stop by its right' 3 /dev/null
begin "${words[@]}"
judge 'behind a stop' "$(client c1 'submit x A B')" 'entries 1;accepted 1;'
judge 'a stop of the next' "$(client c2 'tick' 'stop')" 'entries 1;clock 3 picked 0 dropped 0;stopped;'
ended 5
judge_stop 'a stop of the next' 5 /dev/null
# one that never reads and one that never sends hold it up for nobody
begin "${words[@]}"
peer c0 "
try:
    while True:
        c.send(b'token 0\n' * 1000)
except Broken:
    pass" &
peer c1 "c.read()" 2> /dev/null &
sleep 1
judge 'a stop beside one that never reads' "$(client c2 'stop')" 'entries 2;stopped;'
ended 8
judge 'a stop beside one that never reads: status' "$how" 0
wait

# a disk that is full: nothing is told that is not kept, the service ends, and goes on where there is room
afresh c0 c1
words=(--client "0=$scratch/c0:all" --client "1=$scratch/c1")
most=1 begin "${words[@]}"
head -n 100 "$scratch/lines1" | timeout 60 ../tools/client.py "$scratch/c1" --wait 20 > "$scratch/told1" &
workers=($!)
ended 10
judge 'a full disk' "$how $(< "$scratch/errors") $(wc -c < "$scratch/told")" '3 refused X5 0'
begin "${words[@]}"
wait "${workers[@]}"
judge 'a client of a service whose disk was full' "$(told_as_kept 1 "$scratch/lines1" "$scratch/told1")" '100 100 again'
client c0 close > /dev/null
ended 5
judge_log 'a full disk' 101

# the three forms of replies
for form in short full placed; do
    afresh c0
    begin --client "0=$scratch/c0:all"
    said=$(client c0 'submit x A B' 'tick' 'token 0' close)
    ended 5
    case $form in
        short) judge "replies $form" "$said" 'entries 0;accepted 0;clock 1 picked 0 dropped 0;took 0 end 6;closed;' ;;
        full) judge "replies $form" "$said" 'entries 0;accepted 0;clock 1 picked 0 dropped 0;took 0 path 0,1 1,1 1,0 1,1 2,1 3,1 3,0;closed;' ;;
        placed) judge "replies $form" "$said" \
            'entries 0;0 0 accepted 0;1 0 clock 1 picked 0 dropped 0;2 1 took 0 path 0,1 1,1 1,0 1,1 2,1 3,1 3,0;3 1 closed;' ;;
    esac
done
# the clock is that of the history, whoever ticks
form=placed
afresh c0 c1
begin --client "0=$scratch/c0:all" --client "1=$scratch/c1"
client c0 tick 'submit y C D' tick > /dev/null
judge 'a clock that others move' "$(client c1 'submit x A B' 'token 0')" 'entries 0;3 2 accepted 1;refused C3;'
client c0 close > /dev/null
ended 5
form=full

# a worker for agents and clock beside clients, and boards of what is kept, while they are at work
# Waits until the board says so, 20 seconds at most.
#   board_says LINE
board_says() {
    local k
    for ((k = 0; k < 400; k++)); do
        [[ -e $scratch/board ]] && grep -qx -- "$1" "$scratch/board" && return
        sleep 0.05
    done
    echo "the board never said '$1'"
    false
}
afresh c0 c1
words=(--every 2 --board "$scratch/board" --board-every 2 --client "0=$scratch/c0:close" --client "1=$scratch/c1")
begin "${words[@]}"
judge 'an order beside a worker' "$(client c1 'submit x A B' 'submit y C D')" 'entries 0;accepted 0;accepted 1;'
judge 'the worker delivers' "$(board_says 'done 2')" ''
killed
begin "${words[@]}"
judge 'an order more, in another life' "$(client c1 'submit z B A')" 'entries 2;accepted 2;'
judge 'the worker goes on' "$(board_says 'done 3')" ''
judge 'closed beside a worker' "$(client c0 close)" 'entries 0;closed;'
ended 5
entries=$(grep -c ' = ' "$scratch/log")
judge_log 'a worker' "$entries"
judge 'the last board is of all' "$(sed -n '2p;4,7p' "$scratch/board" | tr '\n' ' ')" "entries $entries open 0 assigned 0 carried 0 done 3 "
judge 'whose entries they are' "$(sed -n 's/^\([0-9]*\) .* = .*/\1/p' "$scratch/log" | sort -nu | tr '\n' ' ')" '0 1 63 '
judge 'what the worker asks' "$(sed -n 's/^63 \([a-z]*\) .*/\1/p' "$scratch/log" | sort -u | tr '\n' ' ')" 'tick token '
judge 'no file beside the board is left' "$(cd -- "$scratch" && echo board*)" 'board'
rm -f -- "$scratch/board"
# a rest of a minute holds the end up for nobody
afresh c0
begin --every 60000 --board "$scratch/board" --board-every 60000 --client "0=$scratch/c0:all"
judge 'long rests' "$(client c0 tick close)" 'entries 0;clock 1 picked 0 dropped 0;closed;'
ended 5
judge_log 'long rests' 2
judge 'the board behind long rests' "$(cat -- "$scratch/board"; echo .)" 'wboard 1
entries 2
clock 1
open 0
assigned 0
carried 0
done 0
0,1 0 none
4,1 0 none
.'
# an idle service makes no entry; one order is carried out, and then it is idle again
afresh c0 c1
begin --every 1 --client "0=$scratch/c0:close" --client "1=$scratch/c1"
sleep 1
judge 'an idle service makes no entry' "$(grep -c ' = ' "$scratch/log")" 0
judge 'an order for an idle service' "$(client c1 'submit x A B')" 'entries 0;accepted 0;'
log_has 1 'dropped 1$'
sleep 1
judge 'nobody asks who would rest' "$(grep -c '^63 token' "$scratch/log")" 1
judge 'the clock stands behind the last delivery' "$(sed -n '/dropped 1$/,$p' "$scratch/log" | grep -c ' = ')" 1
client c0 close > /dev/null
ended 5
judge 'idle with no order open' "$(cat -- "$scratch/errors")" ''
judge_log 'idle' "$(grep -c ' = ' "$scratch/log")"
# an order that nobody can take, as the agents stand at its stops: nobody is asked, as each would rest, before there is another order
afresh c0 c1
mv -- "$scratch/site" "$scratch/both"
sed 's/^agent P0/agent A/; s/^agent P1/agent C/' "$scratch/both" > "$scratch/site"
begin --every 1 --client "0=$scratch/c0:close" --client "1=$scratch/c1"
judge 'an order that nobody can take' "$(client c1 'submit x A C D')" 'entries 0;accepted 0;'
sleep 1
judge 'nobody is asked in vain' "$(grep -c '^63 ' "$scratch/log")" 0
judge 'why the worker is idle' "$(cat -- "$scratch/errors")" 'agents and clock: idle standstill'
judge 'another order' "$(client c1 'submit x B D')" 'entries 1;accepted 1;'
log_has 2 'dropped 1$'
judge 'who rested is asked again' "$(grep -c 'dropped 1$' "$scratch/log")" 2
client c0 close > /dev/null
ended 5
judge_log 'in vain' "$(grep -c ' = ' "$scratch/log")"
mv -- "$scratch/both" "$scratch/site"
# an order to a stop that no way leads to: its agent is refused a path once, and the worker says so
afresh c0 c1
mv -- "$scratch/site" "$scratch/both"
awk '/^%%\r?$/ && ++cut == 2 { exit } { print }' replay/deliver_no_way > "$scratch/site"
begin --every 1 --client "0=$scratch/c0:close" --client "1=$scratch/c1"
judge 'an order that no way leads to' "$(client c1 'submit x N T')" 'entries 0;accepted 0;'
sleep 1
judge 'who is refused a path is asked once' "$(grep '^63 ' "$scratch/log")" '63 token 0 = refused E6
63 tick = clock 1 picked 0 dropped 0'
judge 'why the worker is idle behind it' "$(cat -- "$scratch/errors")" 'agents and clock: idle E6'
client c0 close > /dev/null
ended 5
judge_log 'no way' 4
mv -- "$scratch/both" "$scratch/site"
# where paths go on home an agent is asked as soon as it has no order: it is home at clock 10, and takes the other before
afresh c0
mv -- "$scratch/site" "$scratch/both"
sed '/^agent P1/d' "$scratch/both" > "$scratch/site"
begin --every 5 --ends homes --client "0=$scratch/c0:submit,close"
judge 'two orders for one agent' "$(client c0 'submit x A B' 'submit y C D')" 'entries 0;accepted 0;accepted 1;'
log_has 1 '^63 token 0 = took 1 '
client c0 close > /dev/null
ended 5
judge 'homes: status' "$how" 0
judge 'homes: log' "$({ cat -- "$scratch/site"; echo %%; cat -- "$scratch/log"; } | "$warehouse" verify --ends homes)" "run $(grep -c ' = ' "$scratch/log")"
judge 'homes: from where the second order is taken' "$(sed -n 's/^63 token 0 = took 1 path \([0-9,]*\) .*/\1/p' "$scratch/log" | grep -cv '^0,1$')" 1
mv -- "$scratch/both" "$scratch/site"

# Reads the board again and again until it says that 200 tasks are done, and tells how many differed, or what is wrong with one of
# them: each has its first line, six counts, and a line for each of 20 agents, and no fewer entries than the one before.
watched() {
    python3 - "$scratch/board" << 'END'
import re, sys, time
counts = ["entries", "clock", "open", "assigned", "carried", "done"]
line = re.compile(r"\d+,\d+ \d+ (none|fetching \d+|carrying \d+ \d+)")
shown, entries, limit = 0, -1, time.time() + 60
while time.time() < limit:
    try:
        with open(sys.argv[1], encoding="ascii") as file:
            text = file.read()
    except FileNotFoundError:
        continue
    rows = text.split("\n")
    words = [row.split(" ") for row in rows[1:7]]
    if rows[0] != "wboard 1" or [row[0] for row in words] != counts or len(rows) != 28 or rows[27] != "":
        sys.exit(print("a board that is not whole:", text))
    if not all(line.fullmatch(row) for row in rows[7:27]):
        sys.exit(print("an agent that is not told:", text))
    now = int(words[0][1])
    if now < entries:
        sys.exit(print(f"{now} entries behind {entries}"))
    shown += now != entries
    entries = now
    if rows[6] == "done 200":
        break
print("many" if shown > 10 else shown)
END
}
# stopped while a worker is at work, which goes on behind it: its turn ends, and all orders are delivered by the two
afresh c0 c1 c2
words=(--every 1 --board "$scratch/board" --board-every 2 --client "0=$scratch/c0:close" --client "1=$scratch/c1" --client "2=$scratch/c2:stop")
begin "${words[@]}"
judge 'orders beside a worker' "$(client c1 'submit x A B' 'submit y C D' 'submit x B C')" 'entries 0;accepted 0;accepted 1;accepted 2;'
log_has 3 '^63 tick'
judge 'stopped beside a worker' "$(client c2 stop)" 'entries 0;stopped;'
ended 5
entries=$(grep -c ' = ' "$scratch/log")
judge_stop 'stopped beside a worker' "$entries" /dev/null
judge 'the board behind a stop' "$(sed -n '2p' "$scratch/board")" "entries $entries"
cp -- "$scratch/log" "$scratch/before"
begin "${words[@]}"
judge 'the worker goes on behind a stop' "$(board_says 'done 3')" ''
judge 'closed behind a stop' "$(client c0 close)" 'entries 0;closed;'
ended 5
judge_log 'a worker that was stopped' "$(grep -c ' = ' "$scratch/log")"
judge 'behind a stop the log goes on' "$(cmp -n "$(wc -c < "$scratch/before")" -- "$scratch/before" "$scratch/log" 2>&1)" ''
rm -f -- "$scratch/board"
# it is no word of the other modes
judge 'stop in replay' "$({ cat -- "$scratch/site"; printf '%%%%\nstop\n'; } | "$warehouse" replay)" 'refused C1'

# 20 agents, and 200 tasks from three clients at once
cp -- "$scratch/site" "$scratch/small"
awk '/^%%\r?$/ && ++cut == 2 { exit } { print }' ../examples/shelves > "$scratch/site"
awk '/^%%\r?$/ { ++cut; next } cut == 2 && /^submit/ { print > ("'"$scratch"'/orders" n++ % 3) }' ../examples/shelves
rm -f -- "$scratch/board"
afresh c0 c1 c2
words=(--every 2 --board "$scratch/board" --board-every 5)
for k in 0 1 2; do
    words+=(--client "$k=$scratch/c$k:submit,close")
done
watched > "$scratch/watched" &
workers=($!)
begin "${words[@]}"
for k in 0 1 2; do
    timeout 60 ../tools/client.py "$scratch/c$k" --wait 20 < "$scratch/orders$k" > "$scratch/told$k" &
    workers+=($!)
done
wait "${workers[@]}"
judge 'boards while it runs' "$(< "$scratch/watched")" many
client c0 close > /dev/null
ended 10
judge_log '200 tasks' "$(grep -c ' = ' "$scratch/log")"
judge 'all is done on the last one' "$(sed -n '2p;4,7p' "$scratch/board" | tr '\n' ' ')" \
    "entries $(grep -c ' = ' "$scratch/log") open 0 assigned 0 carried 0 done 200 "
judge 'all is delivered' "$({ cat -- "$scratch/site"; echo %%; } > "$scratch/whole"; python3 ../tools/stats.py "$scratch/whole" "$scratch/log" | awk -F, 'NR == 2 { print $3, $4 }')" '200 200'
mv -- "$scratch/small" "$scratch/site"

# a share by the words, and what is full is told once; a worker has a share of its own
afresh c0 c1
begin --share 4 --journal 5 --every 1 --client "0=$scratch/c0:all" --client "1=$scratch/c1"
judge 'an order for a small journal' "$(client c1 'submit x A B')" 'entries 0;accepted 0;'
log_has 5 ' = '
judge 'a share is no promise where all are more' "$(client c0 'submit x A B')" 'entries 0;refused E11;'
killed
judge 'a full journal is told' "$(grep -cx 'agents and clock: their share of the entries is used' "$scratch/errors") $(grep -cx 'client 0: the journal is full' "$scratch/errors")" '1 1'
afresh c0 c1
begin --journal 9 --every 1 --client "0=$scratch/c0:all" --client "1=$scratch/c1"
judge 'an order for a worker' "$(client c1 'submit x A B')" 'entries 0;accepted 0;'
log_has 3 '^63 '
judge 'a worker leaves the others theirs' "$(client c1 'submit x A B' 'submit x A B' 'submit x A B')" \
    'entries 1;accepted 1;accepted 2;refused E11;'
judge 'and who is to close may' "$(client c0 close)" 'entries 0;closed;'
ended 5
judge 'the worker had its share' "$(grep -c '^63 ' "$scratch/log") $(grep -cx 'agents and clock: their share of the entries is used' "$scratch/errors")" '3 1'
afresh c0 c1
begin --share 2 --client "0=$scratch/c0:all" --client "1=$scratch/c1"
judge 'a share by the words' "$(client c1 'submit x A B' 'submit x A B' 'submit x A B' 'submit x A B')" \
    'entries 0;accepted 0;accepted 1;refused E11;refused E11;'
judge 'a full share is told once' "$(cat -- "$scratch/errors")" 'client 1: its share of the entries is used'
client c0 close > /dev/null
ended 5

# where it does not begin, nothing is written
afresh c0 c1
words=(--log "$scratch/log" --client "0=$scratch/c0:all")
judge 'no pipes' "$(refused "$scratch/site" "${words[@]}" --client "3=$scratch/c3")" '|refused X5 3|3|log*'
mkdir -- "$scratch/c4"
mkfifo -- "$scratch/c4/in"
judge 'one pipe' "$(refused "$scratch/site" "${words[@]}" --client "4=$scratch/c4")" '|refused X5 4|3|log*'
: > "$scratch/c4/out"
judge 'a file and no pipe' "$(refused "$scratch/site" "${words[@]}" --client "4=$scratch/c4")" '|refused X5 4|3|log*'
judge 'the pipes of another' "$(refused "$scratch/site" "${words[@]}" --client "2=$scratch/c0/.")" '|refused X5 2|3|log*'
judge 'a board in place of a pipe' "$(refused "$scratch/site" "${words[@]}" --board "$scratch/c0/in" | cut -d '|' -f 1-3)" '|refused X6|3'
judge 'the pipe is still there' "$([[ -p $scratch/c0/in ]] && echo there)" there
judge 'a board in no folder' "$(refused "$scratch/site" "${words[@]}" --board "$scratch/nowhere/board" | cut -d '|' -f 1-3)" '|refused X6|3'
judge 'a board in place of the log' "$(refused "$scratch/site" "${words[@]}" --board "$scratch/c0/../log" | cut -d '|' -f 1-3)" '|refused X6|3'
judge 'the log is still there' "$(head -n 1 -- "$scratch/log")" 'wlog 2'
rm -- "$scratch"/log*
{ cat -- "$scratch/site"; echo %%; } > "$scratch/behind"
judge 'a section behind the points' "$(refused "$scratch/behind" "${words[@]}")" '|refused X7|2|log*'
echo 'submit x A B' >> "$scratch/behind"
judge 'a script behind the points' "$(refused "$scratch/behind" "${words[@]}")" '|refused X7|2|log*'
sed '1d' "$scratch/site" > "$scratch/no_map"
judge 'no map' "$(refused "$scratch/no_map" "${words[@]}")" '|refused M1 line 1|1|log*'
# the program has words of its own for these, on standard error
wrong() {
    local said
    said=$(refused "$scratch/site" "$@")
    judge "words ${*//"$scratch/"/}" "${said%%|*}|${said#*|*|}" '|2|log*'
}
wrong "${words[@]}" --client "0=$scratch/c1"
wrong "${words[@]}" --client "1=$scratch/c0"
wrong "${words[@]}" --client "62=$scratch/c1"
wrong "${words[@]}" --client "1=$scratch/c1:read"
wrong "${words[@]}" --client "1="
wrong "${words[@]}" --turns 10
wrong "${words[@]}" --every 0
wrong "${words[@]}" --every 60001
wrong "${words[@]}" --board ''
wrong "${words[@]}" --board-every 5
wrong "${words[@]}" --board "$scratch/board" --board-every 0
wrong "${words[@]}" --board "$scratch/board" --board-every 60001
wrong "${words[@]}" --share 0
wrong "${words[@]}" --board "$scratch/log"
wrong "${words[@]}" --board "$scratch/log.site"
wrong --client "0=$scratch/c0"
wrong --log "$scratch/log"
# a log of another site is left as it is
begin "${words[@]:2}"
client c0 'submit x A B' close > /dev/null
ended 5
cp -- "$scratch/log" "$scratch/before"
sed 's/^station A 1 0/station A 3 0/; s/^station B 3 0/station B 1 0/' "$scratch/site" > "$scratch/other"
judge 'another site' "$(refused "$scratch/other" "${words[@]}" | cut -d '|' -f 1-3)" '|refused L1 line 0|1'
judge 'another site: the log' "$(cmp -- "$scratch/before" "$scratch/log" 2>&1)" ''
echo "$passed passed, $failed failed"
((failed == 0))
