# For the scripts beside it, which set `most`, `program` and `work`: a run of the program by a form
# on the input of the folder, and the processor seconds, user and system, that it took.

run() {
    bash -c 'TIMEFORMAT="%3U %3S"; time timeout "$0" "$1" "$3" < "$2/input" > "$2/answer"' \
        "$most" "$program" "$work" "$1" 2> "$work/times"
}

seconds() { awk -v form="$1" '{ printf form, $1 + $2 }' "$work/times"; }
