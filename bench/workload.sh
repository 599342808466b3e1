#!/usr/bin/env bash
# Measures a built program with 0, 1, 2, 4 and 8 history syncers: on the workload with one trigger and with ten an item, from
# a script without and with a journal, and over sockets with a journal, beside the bare disk.
# usage: bench/workload.sh PROGRAM [FOLDER [RUNS]]     the journal's folder, the current one if none is given; 5 runs
set -eu

bench=$(cd "$(dirname "$0")" && pwd)
program=$(realpath "${1:?usage: bench/workload.sh PROGRAM [FOLDER [RUNS]]}")
folder=$(realpath "${2:-.}")
runs=${3:-5}
for triggers in 1 10; do
    echo "== $triggers triggers an item, no journal"
    python3 "$bench/workload.py" "$program" --triggers "$triggers" --syncers 0,1,2,4,8 --runs "$runs"
    echo "== $triggers triggers an item, journal in $folder"
    python3 "$bench/workload.py" "$program" --triggers "$triggers" --syncers 0,1,2,4,8 --runs "$runs" --journal "$folder"
    echo "== $triggers triggers an item, clients over the loopback, journal in $folder"
    python3 "$bench/serve.py" "$program" --triggers "$triggers" --syncers 0,1,2,4,8 --journal "$folder"
done
