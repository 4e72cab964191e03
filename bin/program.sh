# Runs the proved program $name in the caller's folder with the caller's words, and ends with its
# status. Where the program is missing or older than its sources, it is first proved and built with
# the kit's command rt. What is done is said on standard error, and so is why a text may be missing
# there. Status 125, which no program has, says that it could not be built. The scripts of the
# programs read this file.
root=$(dirname "$(dirname "$(readlink -f "$0")")")
crate=$root/crates/$name
program=$crate/out/$name

say() {
    echo "$name: $*" >&2
}

give_up() {
    say "$*"
    exit 125
}

is_stale() {
    [ -x "$program" ] || return 0
    newer=$(find "$root/crates.txt" "$root/crates" -name out -prune -o \
        \( -name '*.rt' -o -name '*.antt' -o -name crates.txt \) -newer "$program" -print | head -n 1)
    [ -n "$newer" ]
}

# The crates that the program stands on and itself, the lowest first.
crates() {
    awk -F: -v program="$name" '
        /^[a-z]/ { below[$1] = $2 }
        function walk(name, i, of, n) {
            if (!(name in below) || name in seen) return
            seen[name] = 1
            n = split(below[name], of, " ")
            for (i = 1; i <= n; i++) walk(of[i])
            print name
        }
        END { walk(program) }' "$root/crates.txt"
}

# Keeps what rt says in a log, and says which crate it is at.
follow() {
    of=$(crates | grep -c .)
    while IFS= read -r line; do
        printf '%s\n' "$line" >>"$log"
        case $line in
        "rt: chose --jobs "*" for "*)
            name=${line##* }
            at=$(crates | grep -nx "$name" | cut -d : -f 1)
            say "proving $name (${at:-?} of $of)"
            ;;
        esac
    done
}

build() {
    command -v rt >/dev/null 2>&1 ||
        give_up "the program is not built from these sources, and the kit's command rt, which builds it, is not there"
    mkdir -p "$crate/out" 2>/dev/null && log=$(mktemp "$crate/out/$name.log.XXXXXX" 2>/dev/null) ||
        give_up "the program is not built from these sources, and $root cannot be written"
    say "proving and building the program; from nothing that takes about ten minutes and 2 GB of memory"
    say "the log is $log"
    rm -f "$program"
    (cd "$crate" && rt run) </dev/null 2>&1 | follow
    [ -x "$program" ] || give_up "the program could not be proved and built; the log says why"
    rm -f "$log"
}

if is_stale; then
    build
fi
"$program" "$@"
status=$?
case $status in
7) say "the output could not be written in full" ;;
8) say "no memory was left, and nothing was written" ;;
esac
exit "$status"
