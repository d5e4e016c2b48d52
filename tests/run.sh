#!/usr/bin/env bash
# Runs the built program on each case of replay, check, tail, verify and state: NAME is its input, NAME.args its arguments
# (one word a line), NAME.stdout what it must write; NAME.stderr (none: nothing) and NAME.status (none: 0) likewise. The logs
# of state are to stay as they are. WAREHOUSE names another program than the one that the gate built.
set -u
warehouse=$(readlink -f -- "${WAREHOUSE:-$(dirname -- "${BASH_SOURCE[0]}")/../crates/warehouse/out/warehouse}")
[[ -x $warehouse ]] || { echo "no program: set WAREHOUSE, or run ./test"; echo '0 passed, 1 failed'; exit 1; }
cd -- "$(dirname -- "${BASH_SOURCE[0]}")" || exit 1

scratch=$(mktemp -d) || exit 1
trap 'rm -rf -- "$scratch"' EXIT
passed=0 failed=0
logs=$(cd state && sha256sum -- *.log)
for wanted in replay/*.stdout check/*.stdout tail/*.stdout verify/*.stdout state/*.stdout; do
    name=${wanted%.stdout}
    mapfile -t words < "$name.args"
    "$warehouse" "${words[@]}" < "$name" > "$scratch/stdout" 2> "$scratch/stderr"
    status=$?
    errors=/dev/null
    [[ -e $name.stderr ]] && errors=$name.stderr
    due=0
    [[ -e $name.status ]] && due=$(< "$name.status")
    if cmp -s "$wanted" "$scratch/stdout" && cmp -s "$errors" "$scratch/stderr" && ((status == due)); then
        passed=$((passed + 1))
    else
        failed=$((failed + 1))
        echo "$name: status $status, wanted $due"
        diff -u "$wanted" "$scratch/stdout"
        diff -u "$errors" "$scratch/stderr"
    fi
done
if [[ $(cd state && sha256sum -- *.log) == "$logs" ]]; then
    passed=$((passed + 1))
else
    failed=$((failed + 1))
    echo 'state: a log was changed or made'
fi
echo "$passed passed, $failed failed"
((failed == 0))
