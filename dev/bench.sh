#!/usr/bin/env bash
# Times whole runs of the program on seeded instances, and counts the instructions of its parts, and prints the figures as
# Markdown: the machine, its load, then a table of the least of several runs. docs/PERFORMANCE.md keeps what it printed.
# Where there is a g++, the unproved peer in dev/peer runs the three warehouses and the queue too.
#
#   dev/bench.sh [all|parts|instructions|runs|pairs|floods|queue|slack]        RUNS=5 dev/bench.sh runs
#
# `pairs` is dev/bench_pairs.py: the program and the peer by turns, ten times each, and the table that the page has of it.
# The parts and the instructions want valgrind, and each of their runs is made once. It builds what is not built. Run it on a machine that does
# nothing else, the queue on a core of its own (`taskset`); instructions do not depend on that.
set -eu

root=$(cd -- "$(dirname -- "$(readlink -f -- "${BASH_SOURCE[0]}")")/.." && pwd)
what=${1:-all}
runs=${RUNS:-3}
program=${WAREHOUSE:-$root/crates/warehouse/out/warehouse}
make="python3 $root/tools/make_instance.py --seed 7 --every 1"
folder=$(mktemp -d)
trap 'rm -rf -- "$folder"' EXIT

machine() {
    echo "Machine: $(sed -n 's/^model name[^:]*: //p' /proc/cpuinfo | head -n 1), $(nproc) processors; load before: $(cut -d' ' -f1 /proc/loadavg)."
    echo "Kit: $(rt version | head -n 1). Commit: $(git -C "$root" rev-parse --short HEAD). The least of $runs runs."
}

# Runs a command on an input, several times: the least processor seconds (user and system), the most MB of memory, the status, and
# the least seconds by the clock.
#   timed INPUT OUTPUT COMMAND..
timed() {
    RUNS=$runs python3 - "$@" <<'PYTHON'
import os, resource, subprocess, sys, time
spent, best, status = [], None, 0
for _ in range(int(os.environ['RUNS'])):
    before = resource.getrusage(resource.RUSAGE_CHILDREN)
    with open(sys.argv[1]) as given, open(sys.argv[2], 'w') as told:
        begin = time.monotonic()
        status = subprocess.run(sys.argv[3:], stdin=given, stdout=told).returncode
        took = time.monotonic() - begin
    best = took if best is None else min(best, took)
    after = resource.getrusage(resource.RUSAGE_CHILDREN)
    spent.append(after.ru_utime + after.ru_stime - before.ru_utime - before.ru_stime)
print(f'{min(spent):.3f} {after.ru_maxrss // 1024} {status} {best:.3f}')
PYTHON
}

# The functions of ours that count most in one run, as rows: a function's instructions and those of all that it calls.
# What the compiler put into its callers has no row of its own.
#   calls NAME INPUT WORDS..
calls() {
    local name=$1 input=$2
    shift 2
    valgrind -q --tool=callgrind --callgrind-out-file="$folder/calls" "$program" "$@" < "$input" > /dev/null 2>&1 || true
    callgrind_annotate --inclusive=yes --threshold=100 --auto=no "$folder/calls" | awk -v run="$name" -v words="$*" '
        { count = $1; gsub(",", "", count); count += 0 }
        /PROGRAM TOTALS/ { all = count }
        match($0, /[:<]wh_[a-z]+::/) && count >= all / 50 {    # two in a hundred, or more
            what = substr($0, RSTART)
            sub(/^:/, "", what)
            sub(/ \[[^]]*\]$/, "", what)
            printf "| %s | `%s` | `%s` | %.1f | %.0f |\n", run, words, what, count / 1e6, 100 * count / all
        }'
}

parts() {
    command -v valgrind > /dev/null || { echo 'bench.sh: no valgrind, so no parts' >&2; return 0; }
    instances
    $make --columns 512 --rows 512 --open --agents 4 --tasks 10000 --ticks 12000 > "$folder/many"
    $make --columns 4096 --rows 4096 --open --agents 1 --tasks 1 --ticks 1 > "$folder/widest"
    $make --columns 35 --rows 21 --agents 50 --tasks 0 --ticks 0 > "$folder/counted"
    awk 'BEGIN { for (n = 0; n < 1000000; n++) printf "submit c%d S%d S%d\n", n % 10000, n % 20, (n + 7) % 20 }' >> "$folder/counted"
    echo
    echo '| Instance | Options | Function, with all that it calls | Million instructions | Of 100 |'
    echo '|---|---|---|---|---|'
    calls '4096 points, 1024 x 1024' "$folder/wide" check
    calls 'small warehouse' "$folder/small" replay --planner near
    calls 'large warehouse' "$folder/large" replay --planner near
    calls 'open map, 512 x 512' "$folder/open" replay --planner near
    calls '10000 tasks, 512 x 512, 4 agents' "$folder/many" replay --planner near
    calls 'one task, 4096 x 4096' "$folder/widest" replay --planner near
    calls '1,000,000 tasks of 10,000 clients' "$folder/counted" replay --tail ledger
}

# Million instructions of the warehouses and of a maze, as a row.
#   totals NAME PROGRAM WORDS..
totals() {
    local name=$1 run row=
    shift
    for run in small large open stops rule large_rule maze; do
        valgrind -q --tool=callgrind --callgrind-out-file="$folder/calls" "$@" < "$folder/$run" > "$folder/$run.output" 2> /dev/null
        row+=" $(awk '/^totals:/ { printf "%.1f", $2 / 1e6 }' "$folder/calls") |"
        [[ ! -e $folder/$run.first ]] || cmp "$folder/$run.first" "$folder/$run.output"    # both print the same
        mv -- "$folder/$run.output" "$folder/$run.first"
    done
    echo "| $name |$row"
}

instructions() {
    command -v valgrind > /dev/null || { echo 'bench.sh: no valgrind, so no instructions' >&2; return 0; }
    instances
    echo
    echo '| Million instructions | small warehouse | large warehouse | open map | small, 2 to 8 stops | small, the rule | large, the rule | maze |'
    echo '|---|---|---|---|---|---|---|---|'
    totals 'the program' "$program" replay --planner near
    if peer_built; then
        totals 'the peer in C++' "$folder/peer" replay
    fi
}

# One run of the program on an input, as a row.
#   row NAME INPUT WORDS..
row() {
    local name=$1 input=$2 figures
    shift 2
    figures=$(timed "$input" "$folder/output" "$program" "$@")
    read -r seconds memory status _ <<< "$figures"
    printf '| %s | `%s` | %s | %s | %s | %s | %s | %s |\n' "$name" "$*" "$(grep -c -v -e '^%%$' "$folder/output")" \
        "$(grep -c '^took' "$folder/output" || true)" "$(grep -c '^refused E6' "$folder/output" || true)" \
        "$seconds" "$memory" "$status"
}

# The log of a replay as an input of verify: the same map and points, and the log in place of the script.
with_log() {
    local input=$1 log=$2
    awk '/^%%\r?$/ { if (++cut == 2) exit } { print }' "$input"
    echo '%%'
    awk 'is_log { print } /^%%$/ { is_log = 1 }' "$log"
}

# The three warehouses by the peer, a plain program in C++ with the same rules and methods.
peers() {
    peer_built || return 0
    local program=$folder/peer
    row 'small warehouse, by the peer in C++' "$folder/small" replay
    row 'large warehouse, by the peer in C++' "$folder/large" replay
    row 'open map, by the peer in C++' "$folder/open" replay
}

# An instance with the cells round its first point blocked, so that its first pair of points is cut.
walled() {
    python3 -c '
import sys
level, points, script = sys.stdin.read().split("%%\n")
rows = level.split("\n")
x, y = map(int, points.split("\n")[0].split()[2:])
for a, b in ((x - 1, y), (x + 1, y), (x, y - 1), (x, y + 1)):
    if 0 <= a < len(rows[4]) and 0 <= b < len(rows) - 5:
        rows[4 + b] = rows[4 + b][:a] + "@" + rows[4 + b][a + 1:]
sys.stdout.write("%%\n".join(["\n".join(rows), points, script]))'
}

# The program is built.
built() {
    [[ -x $program ]] || "$root/warehouse" replay < "$root/examples/deliveries" > /dev/null
}

# The peer is built, where there is a g++.
peer_built() {
    command -v g++ > /dev/null || return 1
    [[ -x $folder/peer ]] || g++ -O2 -march=x86-64-v2 -std=c++17 -o "$folder/peer" "$root/dev/peer/main.cpp"
}

# The instances of both, made once; the program is built.
instances() {
    [[ ! -e $folder/small ]] || return 0
    built
    $make --columns 35 --rows 21 --agents 50 --tasks 500 --ticks 1500 > "$folder/small"
    $make --columns 81 --rows 81 --agents 250 --tasks 1000 --ticks 1500 > "$folder/large"
    $make --columns 512 --rows 512 --open --agents 100 --tasks 200 --ticks 2500 > "$folder/open"
    $make --columns 35 --rows 21 --agents 50 --tasks 500 --ticks 1500 --stops 8 > "$folder/stops"
    $make --columns 35 --rows 21 --agents 50 --tasks 500 --ticks 1500 --nofollow > "$folder/rule"
    $make --columns 81 --rows 81 --agents 250 --tasks 1000 --ticks 1500 --nofollow > "$folder/large_rule"
    $make --columns 2048 --rows 2048 --open --agents 16 --tasks 32 --ticks 100 > "$folder/wider"
    $make --columns 1024 --rows 1024 --open --agents 100 --tasks 0 --ticks 0 > "$folder/wide"
    walled < "$folder/wide" > "$folder/cut"
    python3 "$root/dev/floods.py" maze 81 40 300 > "$folder/maze"
    python3 "$root/dev/floods.py" blocked 16000 20 > "$folder/barred"
    python3 "$root/dev/floods.py" rests 1000 20 3000 > "$folder/rests"
}

whole_runs() {
    instances
    $make --columns 35 --rows 21 --agents 50 --tasks 0 --ticks 0 > "$folder/ticks"
    yes tick | head -n 1000000 >> "$folder/ticks"
    echo
    echo '| Instance | Options | Lines | Tasks taken | No path | Processor seconds | Memory, MB | Status |'
    echo '|---|---|---|---|---|---|---|---|'
    row 'small warehouse, 21 x 35, 50 agents, 500 tasks' "$folder/small" replay --planner near
    row 'large warehouse, 81 x 81, 250 agents, 1000 tasks' "$folder/large" replay --planner near
    row 'open map, 512 x 512, 100 agents, 200 tasks' "$folder/open" replay --planner near
    peers
    row 'small warehouse, 2 to 8 stops' "$folder/stops" replay --planner near
    row 'small warehouse, nobody may follow' "$folder/rule" replay --planner near
    row 'large warehouse, nobody may follow' "$folder/large_rule" replay --planner near
    row 'maze, 81 x 81, 40 agents, 300 tasks' "$folder/maze" replay --planner near
    row '16,000 barred tasks, 20 agents' "$folder/barred" replay --planner near
    row 'open map, 2048 x 2048, 16 agents' "$folder/wider" replay --planner near
    row '1,000,000 ticks, 21 x 35, 50 agents' "$folder/ticks" replay --planner near
    row '3000 rests among 1000 open tasks, 20 agents' "$folder/rests" replay --planner near
    row '4096 points, 512 x 512' "$folder/open" check
    row '4096 points, 1024 x 1024' "$folder/wide" check
    row 'the same, the first of them walled in' "$folder/cut" check
    if "$program" replay --tail log < "$folder/ticks" > "$folder/log" 2> /dev/null; then
        with_log "$folder/ticks" "$folder/log" > "$folder/ticks_log"
        row 'log of 1,000,000 ticks' "$folder/ticks_log" verify
        "$program" replay --tail log < "$folder/small" > "$folder/log"
        with_log "$folder/small" "$folder/log" > "$folder/small_log"
        row 'log of the small warehouse' "$folder/small_log" verify
        "$program" replay --tail log < "$folder/large" > "$folder/log"
        with_log "$folder/large" "$folder/log" > "$folder/large_log"
        row 'log of the large warehouse' "$folder/large_log" verify
        "$program" replay --tail log < "$folder/rests" > "$folder/log"
        with_log "$folder/rests" "$folder/log" > "$folder/rests_log"
        row 'log of the 3000 rests' "$folder/rests_log" verify
    fi
}

# Requests that are expensive, of growing sizes (dev/floods.py).
floods() {
    built
    echo
    echo '| Instance | Options | Lines | Tasks taken | No path | Processor seconds | Memory, MB | Status |'
    echo '|---|---|---|---|---|---|---|---|'
    local words
    for words in 'stops 64 5 2' 'stops 64 8 2' 'stops 128 5 2' 'stops 256 8 2' 'unreachable 64 5' 'unreachable 256 5' 'door 64 4' \
        'door 128 4' 'door 256 4' 'door 512 4' 'hall 100 80' 'hall 200 150' 'hall 400 300' 'hall 800 600' 'late 40 3 1' 'late 60 7 1' \
        'late 100 7 1' 'late 200 7 1' 'late 100 7 0' 'beside 100 7' 'beside 800 7' 'beside 1600 7' 'shut 400' 'ring 201 101' 'ring 401 201' \
        'ring 1001 301' 'ring 2001 601' 'ring 4096 4094' 'blocked 1000 20' 'blocked 4000 20' 'blocked 16000 20' 'wide 512 16' \
        'wide 1024 16' 'wide 2048 16'; do
        # shellcheck disable=SC2086
        python3 "$root/dev/floods.py" $words > "$folder/flood"
        row "$words" "$folder/flood" replay --planner near
    done
    $make --columns 4096 --rows 4096 --open --agents 2 --tasks 1 --ticks 1 > "$folder/flood"
    row 'open map, 4096 x 4096, 2 agents, a task of 2 stops' "$folder/flood" replay --planner near
}

# Sends what stands before the first request, then one request at a time, and waits for its reply: the median and the most
# milliseconds by the clock, of each request the least of the runs.
#   asked INPUT COMMAND..
asked() {
    RUNS=$runs python3 - "$@" << 'PYTHON'
import os, statistics, subprocess, sys, time
with open(sys.argv[1], 'rb') as given:
    lines = given.readlines()
first = next(number for number, line in enumerate(lines) if line.startswith(b'token '))
def answer(run, data, count=1):
    run.stdin.write(data)
    run.stdin.flush()
    return [run.stdout.readline() for _ in range(count)][-1]
def times():
    with subprocess.Popen(sys.argv[2:], stdin=subprocess.PIPE, stdout=subprocess.PIPE) as run:
        answer(run, b''.join(lines[:first]), sum(line.startswith(b'submit ') for line in lines))
        for line in lines[first:]:
            begun = time.perf_counter()
            reply = answer(run, line)
            yield 1000 * (time.perf_counter() - begun)
            assert reply.startswith(b'took '), reply
least = [min(each) for each in zip(*[list(times()) for _ in range(int(os.environ['RUNS']))])]
print(f'{statistics.median(least):.1f} | {max(least):.1f}')
PYTHON
}

# All agents carry to one station (dev/floods.py): the times of their requests.
queue() {
    built
    local rule figures
    echo
    echo '| Instance | Program | Median, ms | Worst, ms |'
    echo '|---|---|---|---|'
    for rule in 0 1; do
        python3 "$root/dev/floods.py" queue 81 250 $rule > "$folder/queue"
        figures=$(asked "$folder/queue" "$program" replay --planner near --ends homes)
        echo "| queue 81 250 $rule | the program | $figures |"
        peer_built || continue
        figures=$(asked "$folder/queue" "$folder/peer" homes)
        echo "| queue 81 250 $rule | the peer in C++ | $figures |"
    done
}

# The program and the peer by turns.
pairs() {
    command -v g++ > /dev/null || { echo 'bench.sh: no g++, so no pairs' >&2; return 0; }
    built
    "$root/dev/bench_pairs.py" --warehouse "$program" --runs "${RUNS:-10}"
}

# Floors without a slack and with one: what all searches of the peer, which are the program's, expand, and one of them at most; the
# program's seconds; and the mean service time, the mean of three seeds.
slack() {
    built
    peer_built || { echo 'bench.sh: no g++, so no counts' >&2; return 0; }
    echo
    echo '| Instance | Expanded | With 4 | By one search at most | With 4 | Processor seconds | With 4 | Mean service time | With 4 |'
    echo '|---|---|---|---|---|---|---|---|---|'
    local name words seed
    while IFS='|' read -r name words; do
        for seed in 7 8 9; do
            # shellcheck disable=SC2086
            python3 "$root/tools/make_instance.py" --every 1 --seed $seed $words > "$folder/slack$seed"
        done
        echo "| $name | $(paste -d ' ' <(slack_figures 0) <(slack_figures 4) | tr '\n' ' ' | sed 's/ / | /g; s/ | $//') |"
    done << 'FLOORS'
35 x 21, 50 agents|--columns 35 --rows 21 --agents 50 --tasks 500 --ticks 1500
81 x 81, 250 agents|--columns 81 --rows 81 --agents 250 --tasks 1000 --ticks 1500
255 x 255, 256 agents|--columns 255 --rows 255 --agents 256 --tasks 1000 --ticks 2500
open, 512 x 512, 100 agents|--columns 512 --rows 512 --open --agents 100 --tasks 300 --ticks 3000
open, 512 x 512, 8 stops|--columns 512 --rows 512 --open --agents 100 --tasks 200 --ticks 6000 --stops 8
FLOORS
}

# The figures of three instances at one slack, each on a line.
#   slack_figures STEPS
slack_figures() {
    local steps=$1 seed
    for seed in 7 8 9; do
        "$folder/peer" counts slack "$steps" < "$folder/slack$seed" 2>&1 > /dev/null
        timed "$folder/slack$seed" "$folder/output" "$program" replay --tail log --slack "$steps"
        python3 "$root/tools/stats.py" --no-header "$folder/slack$seed" "$folder/output"
    done | python3 -c '
import sys
lines = [line.split() for line in sys.stdin]
counts, times, runs = lines[0::3], lines[1::3], [line[0].split(",") for line in lines[2::3]]
print(sum(int(line[1]) for line in counts), max(int(line[3]) for line in counts), sep="\n")
print(f"{sum(float(line[0]) for line in times):.3f}\n{sum(float(run[5]) for run in runs) / len(runs):.1f}")'
}

case $what in
    all) machine; parts; instructions; whole_runs; pairs; floods; queue; slack ;;
    pairs) pairs ;;
    parts) machine; parts ;;
    instructions) machine; instructions ;;
    runs) machine; whole_runs ;;
    floods) machine; floods ;;
    queue) machine; queue ;;
    slack) machine; slack ;;
    *) echo "bench.sh: all, parts, instructions, runs, pairs, floods, queue or slack" >&2; exit 2 ;;
esac
