#!/usr/bin/env bash
# Runs the built program on large scripts, and prints values and bytes a second.
# usage: bench/run.sh PROGRAM [PART]    PART, 1 if not given, divides the sizes.
set -euo pipefail

program=$(realpath "${1:?usage: bench/run.sh PROGRAM [PART]}")
part=${2:-1}
here=$(cd "$(dirname "$0")" && pwd)
folder=$(mktemp -d)
trap 'rm -rf "$folder"' EXIT
source "$here/middle.sh"

python3 "$here/make.py" "$folder" "$part"
cd "$folder"
printf '%-42s %9s %11s %9s %11s %13s\n' workload values bytes seconds values/s bytes/s
while IFS=$'\t' read -r script config values bytes title; do
    middle=$(middle "$title" "$program" "$config.json" "$script")
    awk -v title="$title" -v values="$values" -v bytes="$bytes" -v us="$middle" 'BEGIN {
        printf "%-42s %9d %11d %9.3f %11.0f %13.0f\n", title, values, bytes, us / 1e6, values * 1e6 / us, bytes * 1e6 / us
    }'
done < workloads
