#!/usr/bin/env bash
# Runs the built program's `live`, whose log differs from run to run, and has `verify` say what each log is.
#
#   tests/live.sh [RUNS]      how often each instance runs (20)
#
# WAREHOUSE names another program than ./warehouse, which builds it where it has to be built.
set -u
source "$(dirname -- "${BASH_SOURCE[0]}")/counting.sh"
begin_with_program
trap 'rm -rf -- "$scratch"' EXIT
runs=${1:-20}

# Map and points of an instance, with its last separator.
site() {
    awk '{ print } /^%%\r?$/ && ++cut == 2 { exit }' "$1"
}

# What `verify` says of the log of one run, and how often a request was refused for want of a path.
#   run SITE SCRIPTS WORDS..
run() {
    local site=$1 scripts=$2 rule=()
    shift 2
    [[ "$*" != *homes* ]] || rule=(--ends homes)
    cat -- "$site" "$scripts" | "$warehouse" live "$@" > "$scratch/log" 2> "$scratch/errors"
    [[ -s $scratch/errors ]] && cat -- "$scratch/errors"
    echo "$(cat -- "$site" "$scratch/log" | "$warehouse" verify "${rule[@]}") $(grep -c 'refused E6$' "$scratch/log")"
}

# What is printed where `live` does not begin: standard output, standard error, status.
#   refused INPUT WORDS..
refused() {
    local input=$1 status
    shift
    "$warehouse" live "$@" < "$input" > "$scratch/stdout" 2> "$scratch/stderr"
    status=$?
    echo "$(cat "$scratch/stdout")|$(cat "$scratch/stderr")|$status"
}

# So many clients with nothing to do: the last separator begins the first of them.
empty_clients() {
    site replay/one_delivery
    yes %% | head -n $(($1 - 1))
}

site replay/one_delivery > "$scratch/small"
site ../examples/shelves > "$scratch/shelves"
printf 'submit x A B\nsubmit x B A\n%%%%\nsubmit y C D\n' > "$scratch/two"
printf 'submit x A B\n%%%%\nsubmit y C D\n# next\ngo\n' > "$scratch/go"
cat "$scratch/small" "$scratch/go" > "$scratch/third_line"
# the tasks of the larger warehouse, dealt to three clients
awk '/^%%\r?$/ { ++cut; next } cut == 2 && /^submit/ { print > ("'"$scratch"'/client" n++ % 3) }' ../examples/shelves
{ cat "$scratch/client0"; echo %%; cat "$scratch/client1"; echo %%; cat "$scratch/client2"; } > "$scratch/three"

for ((k = 0; k < runs; k++)); do
    # 3 commands of clients, 8 requests of each of two agents, 8 ticks
    judge 'two clients' "$(run "$scratch/small" "$scratch/two" --turns 8)" 'run 27 0'
    judge 'two clients, a journal of 10' "$(run "$scratch/small" "$scratch/two" --turns 8 --journal 10)" 'run 10 0'
    judge 'two clients, patient' "$(run "$scratch/small" "$scratch/two" --turns 8 --planner patient)" 'run 27 0'
    # 200 tasks, 60 requests of each of 20 agents, 60 ticks
    judge 'shelves' "$(run "$scratch/shelves" "$scratch/three" --turns 60)" 'run 1460 0'
    judge 'shelves, homes' "$(run "$scratch/shelves" "$scratch/three" --turns 60 --ends homes)" 'run 1460 0'
done
judge 'a separator at the end begins an empty client' "$(run "$scratch/small" /dev/null --turns 8)" 'run 24 0'
empty_clients 61 > "$scratch/many"
"$warehouse" live --turns 1 < "$scratch/many" > "$scratch/log"
judge '61 clients' "$(cat "$scratch/small" "$scratch/log" | "$warehouse" verify)" 'run 3'
empty_clients 62 > "$scratch/too_many"
judge '62 clients' "$(refused "$scratch/too_many")" '|refused E94|1'
judge 'a third line that is no command' "$(refused "$scratch/third_line")" '|refused C1 line 3|1'
sed '$d' "$scratch/small" > "$scratch/no_client"
"$warehouse" live < "$scratch/no_client" > "$scratch/log"
judge 'no client' "$(cat "$scratch/small" "$scratch/log" | "$warehouse" verify)" 'run 192'
python3 ../tools/make_instance.py --columns 60 --rows 40 --agents 64 --tasks 0 --ticks 0 | sed '$d' > "$scratch/crowd"
judge '64 agents, a clock and no client' "$(refused "$scratch/crowd")" '|refused E94|1'

# options of `serve` and of `replay` are unknown here
for words in --every=5 --board=board --board-every=5 --client=0=folder --log=log --share=5 --replies=full --tail=log --vehicles; do
    said=$(refused "$scratch/small" "$words")
    judge "$words" "${said%%|*}|$(head -n 1 "$scratch/stderr")|${said##*|}" "|error: unexpected argument '${words%%=*}' found|2"
done
echo "$passed passed, $failed failed"
((failed == 0))
