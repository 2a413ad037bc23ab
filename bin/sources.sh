# shellcheck shell=sh disable=SC2016,SC2034,SC2154,SC3013
# Read by bin/xt, bin/build and bin/unproved, which set `top`: which sources a program is made of, whether a built
# program is that of its sources as they are now, and how a build that was killed is ended.

# What awk knows of crates.txt: the crates that the program stands on, and the program, in `crate` in the order of
# the file, and whether one stands on another in `on`.
reading='
    function reach(of, from, list, n, i) {
        n = split(below[from], list, " ")
        for (i = 1; i <= n; i++)
            if (list[i] in below && !((of, list[i]) in on)) { on[of, list[i]] = 1; reach(of, list[i]) }
    }
    FILENAME == crates_txt && !/^#/ && /:/ {
        it = $1
        sub(/:.*/, "", it)
        order[++all] = it
        below[it] = substr($0, index($0, ":") + 1)
    }
    function read_crates(i) {
        for (i = 1; i <= all; i++) reach(order[i], order[i])
        for (i = 1; i <= all; i++)
            if (order[i] == program || (program, order[i]) in on) crate[++count] = order[i]
    }'

# A program and the crates that it stands on: wanted PROGRAM.
wanted() {
    awk -v crates_txt="$top/crates.txt" -v program="$1" "$reading"'
    END { read_crates(); for (i = 1; i <= count; i++) print crate[i] }' "$top/crates.txt"
}

# The folders of that name of all crates of a program: folders_of PROGRAM src.
folders_of() {
    for crate in $(wanted "$1"); do
        [ ! -d "$top/crates/$crate/$2" ] || echo "crates/$crate/$2"
    done
}

# The checksum of the names and contents of all files in these folders below `top`, and of crates.txt.
checksum_of() {
    (cd "$top" && { find crates.txt "$@" -type f | LC_ALL=C sort | xargs sha256sum; }) | sha256sum | cut -d ' ' -f 1
}

# The checksum of what a proved program says and does: its code and its definitions. No proof is among them, since
# an edit of a proof changes neither the program nor what was proved of it.
proved_sources() {
    # shellcheck disable=SC2046
    checksum_of $(folders_of "$1" src) $(folders_of "$1" specs)
}

# Whether nothing among all sources was edited since this file was written, by one call that is cheap.
unedited_since() {
    [ -z "$(find "$top/crates.txt" "$top"/crates/*/src "$top"/crates/*/specs -newer "$1" -print -quit)" ]
}

# Gives a file the time of this many seconds, from `date +%s`: an edit later than that is an edit since then.
set_time() {
    touch -d "@$2" "$1"
}

# Ends what works in a folder: end_work FOLDER.
end_work() {
    for process in /proc/[0-9]*; do
        case $(readlink "$process/cwd") in "$1" | "$1"/*) kill -KILL "${process#/proc/}" ;; esac
    done 2>/dev/null
}

# Writes beside a proved program the checksums of its sources and of itself: note_sources FILE SOURCES.
note_sources() {
    echo "$2 $(sha256sum <"$1" | cut -d ' ' -f 1)" >"$1.sources"
}

# Whether a proved program is that of its sources: stands PROGRAM. Where a file was edited, or a folder, or all files
# are newer since they are a copy, the checksum tells that was noted beside the program. Where rt itself built the
# program, nothing is noted yet: the times of the files tell, and it is noted. What bin/build packed has no sources.
stands() {
    built=$top/crates/$1/out/$1
    [ -x "$built" ] || return 1
    [ ! -f "$top/PACKED" ] || return 0
    seen=$built
    [ ! "$built.seen" -nt "$built" ] || seen=$built.seen
    if unedited_since "$seen"; then
        [ ! -f "$built.sources" ] || [ "$built" -nt "$built.sources" ] || return 0
        [ -w "${built%/*}" ] || return 0
    fi
    looked=$(date +%s)
    sources=$(proved_sources "$1")
    noted=
    of=
    [ ! -f "$built.sources" ] || read -r noted of <"$built.sources"
    if [ "$of" = "$(sha256sum <"$built" | cut -d ' ' -f 1)" ]; then
        [ "$noted" = "$sources" ] || return 1
    else
        # shellcheck disable=SC2046
        [ -z "$(cd "$top" && find crates.txt $(folders_of "$1" src) $(folders_of "$1" specs) \
            -type f -newer "$built" -print -quit)" ] || return 1
    fi
    # Where nothing can be written there, the next call looks again.
    { note_sources "$built" "$sources" && set_time "$built.seen" "$looked"; } 2>/dev/null
    return 0
}

# The program that bin/unproved kept last, in `program`, and the minutes that its proofs take, in `minutes`.
read_unproved() {
    unproved=$top/.unproved
    [ -f "$unproved/current" ] && read -r key minutes <"$unproved/current" || return 1
    program=$unproved/program.$key
    [ -x "$program" ]
}

# The same, where no source was edited since.
find_unproved() {
    read_unproved && unedited_since "$unproved/current"
}
