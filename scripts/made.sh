# What is built of proved crates, and when it is built anew: for scripts to source, at the repository's top.
#
# A result is made of a crate, every crate below it, the kit and the scripts that build it. Beside it stands RESULT.made-of, with the
# checksum of all that and the result's own. Times play no part.

# The crate's line of crates.txt and those of the crates below it, each as `NAME WORDS:NEEDS`; a library of the kit has none.
lines_below() {
    awk -v name="$1" '
        function visit(n,    list, i, count) {
            if (!(n in needs) || n in seen) return
            seen[n] = 1
            count = split(needs[n], list, " ")
            for (i = 1; i <= count; i++) visit(list[i])
            print heads[n] ":" needs[n]
        }
        { sub(/#.*/, "") }
        /:/ {
            at = index($0, ":"); head = substr($0, 1, at - 1); needed = substr($0, at + 1)
            count = split(head, words, " ")
            head = words[1]
            for (i = 2; i <= count; i++) head = head " " words[i]
            heads[words[1]] = head; needs[words[1]] = needed
        }
        END { visit(name) }' crates.txt
}

# The crate and the crates below it.
names_below() { lines_below "$1" | sed 's/[ :].*//'; }

# The crates that a crate names.
needs_of() { lines_below "$1" | sed -n "s/^$1\( [^:]*\)\{0,1\}://p"; }

# One checksum of what a crate's results are made of; further files may be named, as the script that builds.
made_of() {
    lines=$(lines_below "$1")
    [ -n "$lines" ] || { echo "crates.txt lists no crate $1" >&2 && return 1; }
    folders=$(names_below "$1" | sed 's,^,crates/,')
    kit=$(rt version </dev/null) || { echo "rt version fails: is the Rattle kit's command rt on the PATH?" >&2 && return 1; }
    shift
    # shellcheck disable=SC2086
    sums=$(find -L $folders scripts/made.sh "$@" -path 'crates/*/out' ! -path 'crates/*/*/out' -prune -o -type f ! -path '*/must-fail/*' -exec sha256sum {} +) || return 1
    printf '%s\n' "$kit" "$(uname -m)" "$lines" "$(printf '%s\n' "$sums" | LC_ALL=C sort)" | sum_of_input
}

sum_of_input() { sha256sum | cut -d' ' -f1; }

# Whether a result is there, whole, and made of just this.
is_made() { # RESULT MADE-OF
    [ -s "$1" ] && [ -f "$1.made-of" ] && [ "$(cat "$1.made-of")" = "$2 $(sum_of_input <"$1")" ]
}

# Makes a result anew where it is not made of what stands there now. BUILD is a command that is handed a name to write the result under. One
# process builds at a time; what was built while its code changed is thrown away.
make_result() { # RESULT CRATE SCRIPT BUILD...
    result=$1 crate=$2 script=$3
    shift 3
    sum=$(made_of "$crate" "$script") || return 1
    if is_made "$result" "$sum"; then return 0; fi
    command -v flock >/dev/null || { echo "the command flock is not on the PATH" >&2 && return 1; }
    # the folder of the crates is the lock: it outlives target/, and a build that goes on by itself keeps it
    exec 9<crates
    flock -n 9 || { echo "waiting for another build" >&2 && flock 9; }
    made=0
    make_alone "$@" || made=1
    exec 9<&-
    return $made
}

make_alone() { # BUILD...
    sum=$(made_of "$crate" "$script") || return 1
    if is_made "$result" "$sum"; then return 0; fi
    mkdir -p "$(dirname "$result")" && rm -f "$result.made-of" "$result.new" && "$@" "$result.new" || return 1
    [ -s "$result.new" ] || { echo "the build of $crate wrote nothing" >&2 && return 1; }
    [ "$(made_of "$crate" "$script")" = "$sum" ] || { echo "the code of $crate changed while it was built: run this again" >&2 && return 1; }
    echo "$sum $(sum_of_input <"$result.new")" >"$result.made-of.new" && mv "$result.new" "$result" && mv "$result.made-of.new" "$result.made-of"
}
