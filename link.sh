#!/usr/bin/env bash
# Runs the program on standard input: `link.sh --help` tells how, by the function `help` below.
# Functions that are called by name, as by a trap, look as if nothing called them:
# shellcheck disable=SC2317
set -u

# The folder in which this script stands, behind the symbolic links that it was called by.
own_folder() {
    local script=${BASH_SOURCE[0]} link
    [[ $script = */* ]] || script=./$script
    while [ -L "$script" ]; do
        link=$(readlink "$script") || return
        [[ $link = /* ]] || link=${script%/*}/$link
        script=$link
    done
    CDPATH='' cd -P -- "${script%/*}/" && pwd
}

here=$(own_folder) || exit 70
out=$here/crates/link/out
program=$out/link
# The checksum of the sources that the program was built of, since when they stand so, and since when the program stands.
record=$out/built_of
stand=$out/built_at
logs=$here/out/build
# No run reads further.
limit=2097153
# The process group of what was started and has not ended.
running=

# Tells the user something.
say() {
    echo "link.sh: $*" >&2
}

# Tells why no answer can be given, and ends.
fail() {
    say "$*"
    exit 70
}

# Gives an error line as the program does, and ends with its status.
answer() {
    echo "$2" || exit 7
    exit "$1"
}

help() {
    cat << 'END'
link.sh reads ASN.1 modules on standard input, links them, and writes a line for each definition and each warning.

    ./link.sh < FILE                      runs the program under the word link
    ./link.sh link --depth N < FILE       the same, with rules at most N deep in each other: 1 to 2000, 512 without the word
    cat FILE.. | ./link.sh                several files are one text
    ./link.sh --build                     proves and builds the program, an hour or two, and says how far it is
    ./link.sh --build WORD.. < FILE       the same, and then runs it under these words
    ./link.sh --help | -h | --version     this page | what the program is, and whether what runs is proved

While no program is built of the sources as they stand, each run compiles them, a minute or two, and runs them unproved.

    Status  Answer on standard output
    0       the listing, without a warning
    1       the listing, with warnings
    2       error matching line L column C: the text is no modules by the grammar
    3       error depth N: its rules lie deeper in each other than N
    4       error utf8: the bytes are no UTF-8
    5       error long: the text has more than 2,097,152 bytes
    6       error read: a read failed
    7       a front of what was to be written: a write failed
    8       error usage: the words are none of the above
    9       error memory: memory was wanting
    70      nothing: link.sh itself failed, and tells why on standard error
    130     nothing: the run was interrupted
END
}

# The commit that is checked out here, where this folder is the top of a work tree.
commit() {
    [ "$(git -C "$here" rev-parse --show-toplevel 2> /dev/null)" = "$here" ] || return
    local changes=
    [ -z "$(git -C "$here" status --porcelain)" ] || changes=" + changes"
    echo "commit: $(git -C "$here" rev-parse --short HEAD)$changes"
}

# What the program is, and whether what runs is proved.
version() {
    echo "link: the front half of rasn-compiler 0.7.5, parser and linker of ASN.1 modules, in Rattle"
    commit
    ! command -v rt > /dev/null || echo "kit: $(rt version)"
    if is_built; then
        echo "proved: yes, the program is built of the sources as they stand"
    else
        echo "proved: no: $(why_unproved)"
    fi
}

# Whether the program knows these words: `link`, or `link --depth N`.
are_known() {
    local LC_ALL=C
    [ "${1-}" = link ] || return
    [ $# -ne 1 ] || return 0
    [ $# -eq 3 ] && [ "$2" = --depth ] && [[ $3 =~ ^[1-9][0-9]{0,3}$ ]] && [ "$3" -le 2000 ]
}

# The program's own answer to other words, at once. Where a word is a file's name, standard error says how a file is read.
misused() {
    local word
    for word in "$@"; do
        if [ -d "$word" ]; then
            say "$word is a folder: give the text of a file on standard input: ./link.sh < FILE"
        elif [ -e "$word" ]; then
            say "give the text on standard input: ./link.sh < $word"
        fi
    done
    say "the words are none that the program knows: ./link.sh --help lists them"
    answer 8 "error usage"
}

# What builds and runs the code has to be there.
need_kit() {
    command -v rt > /dev/null || fail "there is no command rt on the path: it proves, builds and tries the program"
}

# The crates of the repository that the program stands on, each behind those that it uses, and the program last.
crates_of_program() {
    awk '
        { sub(/#.*/, ""); at = index($0, ":") }
        at { split(substr($0, 1, at - 1), words, " "); uses[words[1]] = substr($0, at + 1) }
        function visit(name,    i, n, below) {
            if (!(name in uses) || name in seen) return
            seen[name] = 1
            n = split(uses[name], below, " ")
            for (i = 1; i <= n; i++) visit(below[i])
            print name
        }
        END { visit("link") }
    ' "$here/crates.txt"
}

# A checksum of all that the program is built of.
sum_of_sources() {
    (
        cd "$here" || exit
        {
            echo crates.txt
            for crate in $(crates_of_program); do
                find "crates/$crate/src" "crates/$crate/specs" "crates/$crate/proofs" -type f 2> /dev/null
            done | LC_ALL=C sort
        } | tr '\n' '\0' | xargs -0 sha256sum | sha256sum
    )
}

# What the record holds: the checksums of the sources and of the program.
sums() {
    echo "$1"
    sha256sum < "$program"
}

# Whether something in crates/ was changed since a file was, a folder by what was put in or taken out. With `-type f`: whether a file was.
# What lies in crates/NAME/out counts as nothing.
are_changed_since() {
    local since=$1
    shift
    [ -n "$(
        cd "$here" &&
            exec find crates crates.txt -path 'crates/*/out' ! -path 'crates/*/*/out' -prune -o "$@" -cnewer "$since" -print -quit
    )" ]
}

# Whether the program is built of the sources as they stand: by their times, or, where something is newer, by checksums.
is_built() {
    [ -x "$program" ] && [ -f "$record" ] && [ -f "$stand" ] || return
    if [ "$program" -nt "$stand" ] || are_changed_since "$record"; then
        say "something is newer than the build: the checksums are compared"
        is_same_by_sums
    fi
}

# Compares the checksums. Where they agree it notes since when, so that the next run goes by times again.
is_same_by_sums() {
    local now status=1
    now=$(mktemp) || return
    if [ "$(cat "$record")" = "$(sums "$(sum_of_sources)")" ]; then
        touch -r "$now" "$record" "$stand" 2> /dev/null
        status=0
    fi
    rm -f "$now"
    return "$status"
}

# Why a run is unproved, where `is_built` said no.
why_unproved() {
    if [ -x "$program" ]; then
        echo "the program there is not known to be built of the sources as they stand"
    else
        echo "no program is built"
    fi
}

# Ends what runs, and this script with it.
interrupt() {
    trap '' INT TERM HUP
    [ -z "$running" ] || kill -- "-$running" 2> /dev/null
    wait
    exit 130
}

# Starts a command in a process group of its own, waits for its end, and says so many seconds apart that it still runs.
run_watched() {
    local seconds=$1 words=$2 status next
    shift 2
    next=$((SECONDS + seconds))
    trap interrupt INT TERM HUP
    set -m
    "$@" &
    running=$!
    set +m
    while kill -0 "$running" 2> /dev/null; do
        sleep 0.5
        if [ "$SECONDS" -ge "$next" ]; then
            say "$words, after $(passed)"
            next=$((next + seconds))
        fi
    done
    wait "$running"
    status=$?
    running=
    trap - INT TERM HUP
    return "$status"
}

# The time since `SECONDS` was set to 0.
passed() {
    if [ "$SECONDS" -lt 120 ]; then
        echo "$SECONDS s"
    else
        echo "$((SECONDS / 60)) min"
    fi
}

# What builds a crate: its words go to its log.
build_crate() {
    cd "$here/crates/$1" && exec "${@:2}" < /dev/null > "$logs/$1.log" 2>&1
}

# Why a crate was not built, by its log.
fail_by_log() {
    local log=$logs/$1.log
    grep -m 3 -E 'error|not proved|could not tell|^rt: ' "$log" >&2 || tail -n 3 "$log" >&2
    fail "$1 was not built: the log is $log"
}

# Proves and builds each crate of the program, and notes what it is built of, where that stood still.
build() {
    local crates crate number=0 begun sum
    need_kit
    SECONDS=0
    read -r -d '' -a crates < <(crates_of_program)
    say "proving and building ${#crates[@]} crates: an hour or two is usual, with four processors that nothing else takes"
    mkdir -p "$logs"
    for crate in "${crates[@]}"; do
        mkdir -p "$here/crates/$crate/out"
    done
    begun=$logs/begun
    : > "$begun" || fail "nothing can be written in $logs"
    sum=$(sum_of_sources)
    rm -f "$program" "$record" "$stand"
    for crate in "${crates[@]}"; do
        number=$((number + 1))
        build_watched "$crate" "$crate, crate $number of ${#crates[@]}" || fail_by_log "$crate"
    done
    if are_changed_since "$begun" -type f || [ "$sum" != "$(sum_of_sources)" ]; then
        fail "sources were changed while they were built: ./link.sh --build builds them anew"
    fi
    sums "$sum" > "$record"
    : > "$stand"
    touch -r "$begun" "$record"
    say "built after $(passed): $program"
}

# One crate of the build. The program itself is run, too, and that run's status says nothing of the build.
build_watched() {
    say "$2, after $(passed)"
    if [ "$1" != link ]; then
        run_watched 60 "$2" build_crate "$1" rt lib
    else
        run_watched 60 "$2" build_crate "$1" rt run -- link
        [ -x "$program" ]
    fi
}

# Reads standard input to a file, no further than the program does.
take_text() {
    head -c "$limit" > "$1" 2> /dev/null || answer 6 "error read"
}

# What tries the code in a folder that has the text: `rt try` gives the output when it has ended, and tells on standard error how it did.
try_code() {
    local folder=$1
    shift
    cd "$here/crates/link" && exec rt try --seconds 600 -- "$@" < "$folder/text" > "$folder/output" 2> "$folder/told"
}

# Runs the code as it is.
run_unproved() {
    local folder status
    need_kit
    folder=$(mktemp -d) || fail "no folder for the text"
    # The folder's name is known now, and no longer when the script ends.
    # shellcheck disable=SC2064
    trap "rm -rf '$folder'" EXIT
    take_text "$folder/text"
    SECONDS=0
    say "compiling, a minute or two"
    run_watched 20 "still compiling" try_code "$folder" "$@"
    status=$?
    if tail -n 1 "$folder/told" | grep -q "^run=ended status=$status "; then
        cat "$folder/output" || exit 7
        exit "$status"
    fi
    cat "$folder/told" >&2
    fail "the code gave no answer as it is: ./link.sh --build proves and builds it"
}

# Runs the built program, with stack for types that lie deep in each other: 8 MB are usual.
run_built() {
    local stack
    stack=$(ulimit -S -s)
    if [ "$stack" != unlimited ] && [ "$stack" -lt 65536 ] && ! ulimit -S -s 65536 2> /dev/null; then
        say "there are $stack KB of stack and no more: types that lie deep in each other may end the program"
    fi
    exec "$program" "$@"
}

# What is asked of this script by its words.
main() {
    local is_build=false
    case "$*" in
        --help | -h)
            help
            exit 0
            ;;
        --version)
            version
            exit 0
            ;;
    esac
    if [ "${1-}" = --build ]; then
        is_build=true
        shift
    fi
    $is_build || [ $# -gt 0 ] || set -- link
    [ $# -eq 0 ] || are_known "$@" || misused "$@"
    if $is_build; then
        is_built || build
        [ $# -gt 0 ] || exit 0
    fi
    [ ! -t 0 ] || say "the text is read from this terminal, to its end (Ctrl-D)"
    [ ! -d /dev/stdin ] || say "standard input is a folder, which has no text: ./link.sh < FILE"
    is_built && run_built "$@"
    say "$(why_unproved), so the code runs as it is, unproved: ./link.sh --build proves and builds it"
    run_unproved "$@"
}

main "$@"
