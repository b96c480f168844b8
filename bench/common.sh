# shellcheck shell=bash disable=SC2154
# What the benchmarks share. Each of them reads this file at the top of the repository, after it has set "name", its own name.
#
# How they measure: both programs run in turns, many short runs each, and each run's time has the least time of a run that does
# next to nothing taken off, so that starting a program and loading its libraries count on neither side. Of the times that are
# left the least of each side counts, and beside the ratio of these stands the median of the ratios within the turns: where the
# two ratios differ much, other work disturbed the machine. TURNS says how many turns (41).

work=$(mktemp -d) || exit 1
trap 'rm -rf "$work"' EXIT
turns=${TURNS:-41}

# Ends the benchmark where something is missing that it stands on. Nothing is timed then, and that is no failure.
skip() {
    echo "$name: $1, nothing was timed"
    exit 0
}

need_compilers() {
    command -v rt >/dev/null || skip "the command rt is missing"
    command -v cc >/dev/null || skip "no C compiler"
    cc -O2 -o "$work/stopwatch" bench/stopwatch.c || exit 1
}

need_tools() {
    need_compilers
    echo '#include <openssl/core_names.h>' | cc -E - >/dev/null 2>&1 || skip "the headers of OpenSSL 3 are missing (libssl-dev)"
}

# Builds the program of a crate where it isn't built yet, and runs it on these words and on empty input.
build_crate() {
    local crate=$1
    shift
    [ -x "crates/$crate/out/$crate" ] || echo "$name: builds and proves $crate first, which may take minutes"
    (cd "crates/$crate" && rt run -- "$@") </dev/null >"$work/log" 2>&1 || { cat "$work/log"; exit 1; }
}

# Builds a peer in C, with these further words for the compiler, as $work/NAME.
build_peer() {
    local peer=$1
    shift
    cc -O2 -o "$work/$peer" "bench/$peer.c" "$@" || exit 1
}

# Two commands, each with its words, that get $work/input and have to write the same. "idle" is what they do for next to nothing,
# on empty input.
ours=()
ours_idle=()
peer=()
peer_idle=()

# Ends the benchmark where the two commands don't write the same. The word says where.
same_output() {
    "${ours[@]}" <"$work/input" >"$work/ours" || exit 1
    "${peer[@]}" <"$work/input" >"$work/theirs" || exit 1
    if ! [[ -s $work/ours ]] || ! cmp "$work/ours" "$work/theirs"; then
        echo "$name: the outputs differ $1"
        exit 1
    fi
    rm "$work/ours" "$work/theirs"
}

# Runs the two commands in turns, with their outputs thrown away.
race() {
    local turn
    : >"$work/notes"
    for ((turn = 0; turn < turns; turn++)); do
        "$work/stopwatch" "$work/notes" ours_idle "${ours_idle[@]}" </dev/null >/dev/null || exit 1
        "$work/stopwatch" "$work/notes" peer_idle "${peer_idle[@]}" </dev/null >/dev/null || exit 1
        "$work/stopwatch" "$work/notes" ours "${ours[@]}" <"$work/input" >/dev/null || exit 1
        "$work/stopwatch" "$work/notes" peer "${peer[@]}" <"$work/input" >/dev/null || exit 1
    done
}

# Of the race's times, those on the wall (2) or on a processor (3): our least one, the peer's, their ratio, and the median of the
# turns' ratios. Times are microseconds.
result() {
    awk -v column="$1" '
        !($1 in least) || $column < least[$1] { least[$1] = $column }
        $1 == "ours" { ours[++n] = $column }
        $1 == "peer" { peer[n] = $column }
        END {
            for (i = 1; i <= n; i++) {
                ratio = (ours[i] - least["ours_idle"]) / (peer[i] - least["peer_idle"])
                for (k = i; k > 1 && sorted[k - 1] > ratio; k--) sorted[k] = sorted[k - 1]
                sorted[k] = ratio
            }
            o = least["ours"] - least["ours_idle"]
            p = least["peer"] - least["peer_idle"]
            print o, p, o / p, sorted[int((n + 1) / 2)]
        }' "$work/notes"
}
