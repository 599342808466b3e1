#!/usr/bin/env bash
# Opens the built program on configurations with hosts of one template, with many global macros, and with a key that would
# be as long as 5,000 macros of 1 MB, and prints how the time grows, and how much memory the last one takes.
# usage: bench/flatten.sh PROGRAM [HOSTS]    HOSTS, 1,000 if not given, is the greatest number of hosts; a tenth comes first.
#        The macros are 100 a host, and 100,000 for 1,000 hosts; a tenth comes first.
set -euo pipefail

program=$(realpath "${1:?usage: bench/flatten.sh PROGRAM [HOSTS]}")
most=${2:-1000}
here=$(cd "$(dirname "$0")" && pwd)
folder=$(mktemp -d)
trap 'rm -rf "$folder"' EXIT
source "$here/middle.sh"

cd "$folder"
echo '100.000000000 closed' > script
printf '%6s %8s %9s %9s %7s\n' hosts items triggers seconds growth
# templates TRIGGERS [WORD]: times of a tenth of the hosts and of all, of a template with so many triggers.
templates() {
    local hosts middle before=
    for hosts in $((most / 10)) "$most"; do
        python3 "$here/hosts.py" "$hosts" "${@:2}" > config.json
        middle=$(middle "$hosts hosts" "$program" config.json script)
        awk -v hosts="$hosts" -v triggers="$1" -v us="$middle" -v before="$before" 'BEGIN {
            growth = before == "" ? "" : sprintf("%.1f", us / before)
            printf "%6d %8d %9d %9.3f %7s\n", hosts, hosts * 100, hosts * triggers, us / 1e6, growth
        }'
        before=$middle
    done
}
templates 10
# ten calls, four tags and a dependency each
templates 50 calls

# macros KIND: times of a tenth of the macros and of all, over hosts or items of which each names the last macro.
macros() {
    local count number middle before=
    for count in $((most * 10)) $((most * 100)); do
        number=$([[ $1 == hosts ]] && echo "$most" || echo "$((most * 100))")
        python3 "$here/macros.py" "$1" "$count" "$number" > config.json
        middle=$(middle "$count macros and $number $1" "$program" config.json script)
        awk -v macros="$count" -v number="$number" -v kind="$1" -v us="$middle" -v before="$before" 'BEGIN {
            growth = before == "" ? "" : sprintf("%.1f", us / before)
            printf "%8d %8d %-6s %9.3f %7s\n", macros, number, kind, us / 1e6, growth
        }'
        before=$middle
    done
}

printf '\n%8s %8s %-6s %9s %7s\n' macros number of seconds growth
macros hosts
macros items

# The key is refused at its byte 2,048. The most memory that the program held at once, beside the size of the document.
python3 "$here/macros.py" key 5000 1000000 > config.json
/usr/bin/time -f '%e %M' -o held "$program" --mode feed --config config.json --script script < /dev/null > printed || true
read -r seconds held <<< "$(tail -n 1 held)"
awk -v seconds="$seconds" -v held="$held" -v size="$(stat -c %s config.json)" -v line="$(tail -n 1 printed)" 'BEGIN {
    printf "\na key of 5,000 macros of 1 MB: %.3f s, document of %.1f MB, %.1f MB held\n%s\n", seconds, size / 1e6, held / 1e3, line
}'
