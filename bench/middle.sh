# The middle time of three runs of a program that opens well. Sourced by the benchmarks.

# middle TITLE PROGRAM CONFIG SCRIPT: prints the middle of three times in microseconds, or TITLE with the line of a run that ends otherwise.
middle() {
    local seconds='' begin end line
    for _ in 1 2 3; do
        begin=$(date +%s%N)
        "$2" --mode feed --config "$3" --script "$4" < /dev/null > printed || true
        end=$(date +%s%N)
        line=$(tail -n 1 printed)
        if [[ $line != 'status: Ok; '* ]]; then
            echo "$1: $line" >&2
            return 1
        fi
        seconds+="$(((end - begin) / 1000)) "
    done
    tr ' ' '\n' <<< "$seconds" | sed '/^$/d' | sort -n | sed -n 2p
}
