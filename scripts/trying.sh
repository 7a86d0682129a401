# What the scripts share that try a program's reading and writing: for scripts to source, at the repository's top, with `program` set.
#
# Each case is a line; `count_cases` is the last call: it counts them, and fails where one is wrong.
room=$(mktemp -d)
trap 'rm -rf "$room"' EXIT
right=0 wrong=0

case_is() { # TEXT STATUS
    if [ "$2" = 0 ]; then
        right=$((right + 1)) && echo "right  $1"
    else
        wrong=$((wrong + 1)) && echo "WRONG  $1 (status $status)" && head -n 3 "$room/said" | sed 's/^/         /'
    fi
}

# Runs it with the standard input and output of the call.
run() {
    status=0
    "$program" 2>"$room/said" || status=$?
}
# Whether the run failed and said this.
says() { [ "$status" = 1 ] && grep -q "$1" "$room/said"; }
went_well() { [ "$status" = 0 ] && [ ! -s "$room/said" ]; }
wrote_just() { [ "$(cat "$room/wrote")" = "$1" ]; }

count_cases() {
    echo "$((right + wrong)) cases, $wrong wrong"
    [ "$wrong" = 0 ]
}
