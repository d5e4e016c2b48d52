# Sourced by the scripts of this folder: counts what holds, in `passed` and `failed`.
passed=0 failed=0

# Whether what was found is what was wanted.
#   judge NAME FOUND WANTED
judge() {
    if [[ $2 == "$3" ]]; then
        passed=$((passed + 1))
    else
        failed=$((failed + 1))
        echo "$1: got '$2', wanted '$3'"
    fi
}

# Sets `warehouse` to the program and `scratch` to an empty folder, and goes to the script's own. WAREHOUSE names another program
# than the one that the gate built.
begin_with_program() {
    local here
    here=$(dirname -- "${BASH_SOURCE[0]}")
    warehouse=$(readlink -f -- "${WAREHOUSE:-$here/../crates/warehouse/out/warehouse}")
    [[ -x $warehouse ]] || { echo "no program: set WAREHOUSE, or run ./test"; echo '0 passed, 1 failed'; exit 1; }
    cd -- "$here" || exit 1
    scratch=$(mktemp -d) || exit 1
}
