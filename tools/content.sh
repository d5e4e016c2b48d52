# Sourced by the launcher, tools/look, ./test and tools/release: what the program is made of, told by content. `root` is the
# top of the repository. A checkout that changes nothing, or a `touch`, makes nothing old; a changed byte does.
#
# A made thing has a stamp beside it: the toolchain's line, a sum over the sources, and then the files as they were seen, which
# saves reading them again: a file that keeps its size, its inode and the time of that one's last change has its content too.

# The crates that the program stands on, itself among them, a line each.
crates_needed() {
    awk '{ sub(/#.*/, ""); if (split($0, part, ":") < 1 || part[1] ~ /^ *$/) next
           split(part[1], head, " "); uses[head[1]] = part[2] }
         function walk(name, libraries, n, i) {
             if (!(name in uses) || name in seen) return
             seen[name] = 1; print name
             n = split(uses[name], libraries, " ")
             for (i = 1; i <= n; i++) walk(libraries[i])
         }
         END { walk("warehouse") }' "$root/crates.txt"
}

# Their lines of crates.txt.
#   crate_lines NAME..
crate_lines() {
    grep -E "^($(IFS='|'; echo "$*"))[ :]" "$root/crates.txt"
}

# The files that the program is made of, each behind what tells whether it changed, and the lines of its crates. `code`: what is
# compiled; `proofs`: definitions and proofs too.
#   sources code|proofs
sources() {
    local names folders
    mapfile -t names < <(crates_needed)
    folders=("${names[@]/%//src}")
    [[ $1 == code ]] || folders+=("${names[@]/%//specs}" "${names[@]/%//proofs}")
    crate_lines "${names[@]}" | sed 's/ *#.*//'
    cd -- "$root/crates" && find "${folders[@]}" -type f \( -name '*.rt' -o -name '*.antt' \) -printf '%s %i %C@ %p\n' 2> /dev/null | LC_ALL=C sort -k 4
}

# The sum over the content of such a list, which it reads.
sum_of() {
    local list
    list=$(cat)
    { grep -v '^[0-9]' <<< "$list"; cd -- "$root/crates" && sed -n 's/^[0-9][^ ]* [^ ]* [^ ]* //p' <<< "$list" | tr '\n' '\0' | xargs -0r sha256sum --; } \
        | sha256sum | cut -d ' ' -f 1
}

# Whether what has this stamp was made of the sources as they are.
#   is_made_of code|proofs STAMP
is_made_of() {
    local now kit sum seen
    [[ -e $2 ]] || return 1
    now=$(sources "$1")
    { IFS= read -r kit; IFS= read -r sum; seen=$(cat); } < "$2"
    [[ $now == "$seen" ]] && return
    [[ $(sum_of <<< "$now") == "$sum" ]] || return 1
    # (where the stamp may not be written it is read again the next time)
    { printf '%s\n%s\n%s\n' "$kit" "$sum" "$now" > "$2.new" && mv -f -- "$2.new" "$2"; } 2> /dev/null
    return 0
}

# Prints the stamp of what is made from now on: what changes meanwhile is seen, since the sum is of the sources as they are.
#   stamp code|proofs
stamp() {
    local now
    now=$(sources "$1")
    printf '%s\n%s\n%s\n' "$(rt version 2> /dev/null | head -n 1)" "$(sum_of <<< "$now")" "$now"
}
