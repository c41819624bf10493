#!/usr/bin/env bash
# Begins a new folder for day BASE: carries over what vehicles were charged on the 69 days before it, and the tariffs.
#
#     scripts/new_folder.sh PROGRAM OLD NEW BASE [MISSING]
#
# PROGRAM is the executable toll_office, OLD the folder of the old tolls.db, NEW a folder that is not there yet. Each of
# the 69 days is exported to a file of its own, and the status of each export is looked at. MISSING is how many of these
# days you know are not kept, 0 if you leave it out; any other number of them stops the script, because export cannot
# tell a day without traffic from a day that only a history has, as each day below 70. The script stops at the first
# thing that is not as expected, with status 1 and a line on standard error; then there is no folder NEW, and NEW.part
# has what was made so far. OLD is only read.
set -euo pipefail

stop() {
    echo "new_folder: $*" >&2
    exit 1
}

[ $# -eq 4 ] || [ $# -eq 5 ] || stop "words: PROGRAM OLD NEW BASE [MISSING]"
program=$(realpath -- "$1")
old=$(realpath -- "$2")
new=$3
base=$4
missing=${5:-0}
[[ $base =~ ^[1-9][0-9]{1,6}$ ]] && [ "$base" -ge 70 ] && [ "$base" -le 1000000 ] || stop "BASE is 70 to 1000000"
[[ $missing =~ ^[0-9]{1,2}$ ]] || stop "MISSING is a number of days"
[ -x "$program" ] || stop "no program $program"
[ -f "$old/tolls.db" ] || stop "no file $old/tolls.db"
[ ! -e "$new" ] && [ ! -e "$new.part" ] || stop "$new or $new.part is there already"
mkdir -- "$new.part"
part=$(realpath -- "$new.part")
mkdir -- "$part/days"

# runs the program in a folder, its output in a file, and puts its status into `status`
status=0
run() {
    local folder=$1 output=$2
    shift 2
    status=0
    (cd -- "$folder" && exec "$program" "$@") > "$output" || status=$?
}

absent=0
: > "$part/past.csv"
for ((d = 69; d >= 1; d--)); do
    day=$((base - d))
    file="$part/days/$day.csv"
    if [ "$day" -lt 70 ]; then
        # only a history can have it, and no command exports that
        absent=$((absent + 1))
        continue
    fi
    run "$old" "$file" export "$day"
    case $status in
    0)
        [ "$(head -n 1 -- "$file")" = "vid,day,xway,tolls" ] || stop "the export of day $day has no head"
        awk -F, -v d="$d" 'NR > 1 { print $1 "," d "," $3 "," $4 }' "$file" >> "$part/past.csv"
        ;;
    3)
        [ "$(cat -- "$file")" = "# no day $day" ] || stop "the export of day $day: $(tail -n 1 -- "$file")"
        absent=$((absent + 1))
        echo "day $day is not kept" >&2
        ;;
    *) stop "the export of day $day ended with status $status: $(tail -n 1 -- "$file")" ;;
    esac
done
[ "$absent" -eq "$missing" ] || stop "$absent of the 69 days are not kept, and you said $missing"

run "$old" "$part/tariffs.csv" tariffs
[ "$status" -eq 0 ] || stop "tariffs ended with status $status: $(tail -n 1 -- "$part/tariffs.csv")"
run "$part" "$part/past.out" past "$base" < "$part/past.csv"
[ "$status" -eq 0 ] || stop "past ended with status $status: $(tail -n 1 -- "$part/past.out")"
while IFS=, read -r xway crowd speed factor; do
    run "$part" "$part/tariff.out" tariff "$xway" "$crowd" "$speed" "$factor" < /dev/null
    [ "$status" -eq 0 ] || stop "tariff $xway ended with status $status: $(tail -n 1 -- "$part/tariff.out")"
done < "$part/tariffs.csv"
run "$part" "$part/tariffs.out" tariffs
[ "$status" -eq 0 ] && cmp -s -- "$part/tariffs.csv" "$part/tariffs.out" || stop "the tariffs of the two folders differ"

cat -- "$part/past.out"
rm -r -- "$part/days" "$part/past.out" "$part/tariffs.out"
rm -f -- "$part/tariff.out"
mv -- "$part" "$new"
