# For the scripts beside it: the least of ten runs of the words as a process, in microseconds; what the last one wrote is in out.txt.
best() {
    local least=999999999 before after spent
    for _ in 1 2 3 4 5 6 7 8 9 10; do
        before=$(date +%s%N)
        "$@" > out.txt 2>&1 || true
        after=$(date +%s%N)
        spent=$(((after - before) / 1000))
        [ "$spent" -lt "$least" ] && least=$spent
    done
    echo "$least"
}

# The least of so many runs of the words as a process, in milliseconds of a processor, the user's and
# the system's. Other work on the machine disturbs it little.
processor() {
    local runs=$1 least=999999 user system spent
    shift
    local TIMEFORMAT='%3U %3S'
    for _ in $(seq "$runs"); do
        { time "$@" > out.txt 2> errors.txt || true; } 2> time.txt
        read -r user system < time.txt
        spent=$((10#${user/./} + 10#${system/./}))
        [ "$spent" -lt "$least" ] && least=$spent
    done
    echo "$least"
}
