# For `mptcp_sim`, `mptcp_view` and `mptcp_judge`, which source this file: the program `name` of the repository in the folder `top`, the proved
# one or the same sources built without a proof. What is built so is kept in the folder `kept`, which git ignores, as long as no source is
# newer.

crate=$top/crates/$name
program=$crate/out/$name
kept=$top/out/unproved
work=

# Ends with this status, and a line on standard error as the program's.
answer() {
    echo "$name: $2" >&2
    exit "$1"
}

# What `--version` prints: the commit of the sources, and the kit that proves and builds them, as far as these are known.
print_version() {
    local commit kit
    commit=$(git -C "$top" rev-parse --short=12 HEAD 2>/dev/null) || commit=unknown
    kit=$(rt version 2>/dev/null) || kit=unknown
    printf '%s\ncommit: %s\nkit: %s\n' "$name" "$commit" "$kit"
}

# is_current FILE: whether a program is there, and no source is newer.
is_current() {
    [ -x "$1" ] || return 1
    [ -z "$(find "$top/crates.txt" "$top"/crates/*/{src,specs,proofs} -newer "$1" -print -quit 2>/dev/null)" ]
}

# run_proved WORD..: ends with a run of the proved program. Its heap comes in huge pages where the system gives them to who asks, and grows by 8 MiB at once;
# the stacks of a round's threads are kept for the next round's. A setting of the user's own, also an empty one, stays.
run_proved() {
    export GLIBC_TUNABLES=${GLIBC_TUNABLES-glibc.malloc.hugetlb=1:glibc.malloc.top_pad=8388608:glibc.pthread.stack_cache_size=536870912}
    exec "$program" "$@"
}

# run_unproved FILE WORD..: ends with a run of a program that was built without a proof, and says so.
run_unproved() {
    local built=$1
    shift
    echo "$name: this run isn't proved; 'rt ci' proves and builds the program, which is then used" >&2
    [ -n "$work" ] || exec "$built" "$@"
    "$built" "$@"
    exit
}

# is_built: whether a program is there as the sources stand.
is_built() {
    is_current "$program" || is_current "$kept/$name"
}

# run_built WORD..: ends with a run of the program that is there, the proved one first.
run_built() {
    ! is_current "$program" || run_proved "$@"
    run_unproved "$kept/$name" "$@"
}

# Ends what a build still runs, and removes what it leaves.
clean_up() {
    kill $(jobs -p) 2>/dev/null && wait
    rm -rf "$work"
}

# build WORD..: builds the program into the folder `work`, by a run without a proof of these words, among which FIFO stands for the script.
# While the run waits there for its script, the program that `rt try` has made is copied; then the script ends, and with it the run.
build() {
    command -v rt >/dev/null || answer 70 "no program is built, and 'rt', which builds one, isn't on the path"
    echo "$name: the program is built without a proof first, which takes some minutes" >&2
    work=$(mktemp -d) && trap clean_up EXIT && mkfifo "$work/fifo" && touch "$work/begun" || exit 70
    (exec 8>"$work/fifo" && cp "$(find "$work" -type f -name program)" "$work/copy" && mv "$work/copy" "$work/$name") 2>/dev/null 9>&- &
    (cd "$crate" && TMPDIR=$work exec rt try --seconds 600 -- "${@/#FIFO/$work/fifo}") >"$work/said" 2>&1 </dev/null 9>&- &
    wait $!
    if ! [ -x "$work/$name" ]; then
        cat "$work/said" >&2
        answer 70 "the program can't be built without a proof"
    fi
    touch -r "$work/begun" "$work/$name"
}

# keep: keeps what was built, which counts as old as the begin of its build, under its name only when all of it is there; fails where the
# folder can't be written.
keep() {
    { cp -p "$work/$name" "$kept/.$name" && mv -f "$kept/.$name" "$kept/$name"; } 2>/dev/null
}

# run_anew WORD..: ends with a run of the program, which is built by a run of `builds` and kept where that can be. Of two calls at once one
# waits till the other has built.
run_anew() {
    { mkdir -p "$kept" && exec 9>"$kept/.lock-$name" && flock 9; } 2>/dev/null
    if ! is_built; then
        build "${builds[@]}"
        if keep; then
            clean_up
            work=
        fi
    fi
    exec 9>&-
    [ -z "$work" ] || run_unproved "$work/$name" "$@"
    run_built "$@"
}
