# Snapshots made byte by byte: for scripts to source. A snapshot is described by a line `SIZE NUMBER` for each of its numbers.

# The bytes of what is described: each number takes its size, the least byte first.
as_bytes() {
    # shellcheck disable=SC2059
    printf "$(awk '{ rest = $2; for (i = 0; i < $1; i++) { printf "\\%03o", rest % 256; rest = int(rest / 256) } }')"
}

# Numbers of eight bytes: the settings in their order, then the messages and bytes in flight.
words() { printf '8 %s\n' "$@"; }

# The contents: the settings at byte 32, the load at 104, so many rows at 120.
contents() { # ROWS
    printf '2 %s\n4 %s\n4 %s\n' 1 32 72 2 104 16 3 120 $((121 * $1)) | { echo '2 3' && cat; }
}

# A row: a key of 2 and 32 equal bytes, then the eleven numbers.
row() { # BYTE NUMBERS...
    echo '1 2'
    awk -v byte="$1" 'BEGIN { for (i = 0; i < 32; i++) print 1, byte }'
    shift
    words "$@"
}

# So many rows whose keys are 2, the row's number and zeros.
many_rows() { # COUNT
    awk -v count="$1" 'BEGIN {
        for (k = 0; k < count; k++) {
            print 1, 2; print 1, int(k / 256); print 1, k % 256
            for (i = 3; i < 33; i++) print 1, 0
            for (i = 0; i < 11; i++) print 8, 0
        }
    }'
}
