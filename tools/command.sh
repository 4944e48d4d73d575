# What the commands at the front of the repository share: bringing a file up to date, running a program, and the exit status.
# A command sets `repository` to the repository's folder and reads this file. One around a program is then a single call,
#
#     answer_by PROGRAM 'What it does.' '0 what that means, 1 what that means' 'EVERY-ANSWER' 'YES' "$@"
#
# A program ends with status 0 if it gives an answer, whichever answer that is. The command turns what
# is printed into a status. EVERY-ANSWER is a pattern (of grep -E) that some line of every answer fits.
# YES is one that a line fits if the status is to be 0. If a program cannot read its input, it prints
# no answer: nothing at all, or the line of an error, with status 1.

set -u
name=$(basename "$0")
# The commands' own folder: the programs as they are run, what rt said, and where the toolchain is.
keep=$repository/target/commands

trouble() { # WHAT
    printf '%s: %s\n' "$name" "$*" >&2
    exit 2
}

# A command around a program, from its arguments to its status.
answer_by() { # PROGRAM PURPOSE STATUSES EVERY-ANSWER YES [ARGUMENT..]
    program=$keep/$1 crate=$1 purpose=$2 statuses=$3 every_answer=$4 yes=$5
    shift 5
    if [ "${1:-}" = --help ]; then
        print_help 2>/dev/null && exit 0
        trouble "the help could not be written"
    fi
    [ $# -le 1 ] || trouble "one file at most, please: $name [FILE]"
    (: 3>&1) 2>/dev/null || trouble "standard output is closed"
    if [ $# -eq 1 ]; then expect_file "$1"; else expect_input; fi
    make_program "$crate"
    if [ $# -eq 1 ]; then answer=$({ run "$program" <"$1"; } 2>&1); else answer=$(run "$program" 2>&1); fi
    tell $? "${1:-standard input}"
}

print_help() {
    cat <<END
usage: $name [FILE]

$purpose
FILE holds one message; where no file is named it comes on standard input.

Exit status: $statuses, 2 trouble, which one line on standard error tells. Nothing is printed where the input could not be read.

The program is built where it is missing or a source has changed since: that proves the library, which takes some minutes and needs the
Rattle toolchain's command rt. Once it is built rt is not needed, but on Arm the emulator qemu-x86_64 and the toolchain's C library are.
END
}

# What is sure to be trouble is told before minutes are spent on building.
expect_file() { # FILE
    [ -e "$1" ] || trouble "$1: there is no such file"
    [ ! -d "$1" ] || trouble "$1: is a directory"
    [ -r "$1" ] || trouble "$1: may not be read"
}

expect_input() {
    (: 3<&0) 2>/dev/null || trouble "standard input is closed"
}

# Writes an answer out and ends with its status.
tell() { # PROGRAM'S-STATUS INPUT
    first=$(printf '%s\n' "$answer" | head -n 1)
    ! gave_up "$1" || trouble "$2: could not be read$(why_it_gave_up)"
    [ "$1" -eq 0 ] || trouble "the program did not run (status $1): $first"
    answer_has "$every_answer" || trouble "the program gave no answer: $first"
    printf '%s\n' "$answer" 2>/dev/null || trouble "the answer could not be written"
    answer_has "$yes" || exit 1
    exit 0
}

# Whether a program ran and gave no answer. It printed nothing, or its `main` returned an error: Rattle
# then writes `Error: ` and the error, and the status is 1.
gave_up() { # PROGRAM'S-STATUS
    case $1,$answer in
    0, | 1,'Error: '*) return 0 ;;
    *) return 1 ;;
    esac
}

# The error of a program that gave up, in parentheses: what the system says of it, if it is the system's.
why_it_gave_up() {
    printf '%s\n' "$answer" | sed -n '1{
        s/^Error: //
        s/^.*message: "\([^"]*\)".*$/\1/
        s/^..*$/ (&)/p
    }'
}

# Whether some line of the answer fits a pattern.
answer_has() { # PATTERN
    [ -n "$(printf '%s\n' "$answer" | grep -E "$1")" ]
}

# Programs are for x86-64. Another processor runs them by an emulator, over the toolchain's C library,
# whose folder was noted when the program was built.
run() { # PROGRAM [ARGUMENT..]
    if [ "$(uname -m)" = x86_64 ]; then
        "$@"
    else
        libraries=$(cat "$keep/toolchain")/toolchain/lib
        "${EMULATOR:-qemu-x86_64}" -cpu max "$libraries/ld-linux-x86-64.so.2" --library-path "$libraries" "$@"
    fi
}

# Brings the program of a crate up to date.
make_program() { # CRATE
    bring_up_to_date "$keep/$1" "$1" "$1" run
}

# If a file is missing or a source is newer, rt makes it anew. MADE is what rt leaves in the crate's
# out/, and FILE becomes its copy. The copy bears the time at which the building began, so a source
# that is changed meanwhile is newer. It comes into its place at once, so no other command ever meets
# half of it.
bring_up_to_date() { # FILE CRATE MADE RT'S-WORD..
    outdated "$1" "$2" || return 0
    command -v rt >/dev/null || trouble "building needs the Rattle toolchain, and its command rt is not on the path"
    mkdir -p "$keep" "$(dirname "$1")" 2>/dev/null
    [ -w "$keep" ] || trouble "$keep cannot be written"
    file=$1 of=$2 made=$repository/crates/$2/out/$3
    shift 3
    lock
    if outdated "$file" "$of"; then
        : >"$keep/$of.began"
        build "$@"
        { cp "$made" "$file.new" && touch -r "$keep/$of.began" "$file.new" && mv "$file.new" "$file"; } || trouble "$file could not be written"
    fi
    exec 9>&-
}

# Whether a file is missing, or older than crates.txt or a file that it is made from.
outdated() ( # FILE CRATE
    cd "$repository" || exit 0
    [ ! -f "$1" ] || [ -n "$(find crates.txt $(sources "$2") -newer "$1" | head -n 1)" ]
)

# The folders that a crate is made from, with those of the crates below it. A crate's out/ is no source.
sources() { # CRATE
    for below in $(crates_below "$1"); do
        for part in src specs proofs; do
            [ ! -d "crates/$below/$part" ] || echo "crates/$below/$part"
        done
    done
}

# One command builds at a time; where the system has no flock, two at once are not held apart. The lock goes with whoever holds it.
lock() {
    exec 9>"$keep/lock"
    command -v flock >/dev/null || return 0
    flock -n 9 && return 0
    echo "$name: another command is building, waiting for it" >&2
    flock 9
}

# Has rt prove the crate, with all that it rests on, and compile it. What rt says goes into a log.
# What an earlier build made is removed first: what stands there afterwards was made now. Of `rt run`
# the status does not tell, since it runs the program, too, and ends with the program's status.
build() { # RT'S-WORD..
    log=target/commands/$of.log
    echo "$name: building, which proves the library and takes some minutes (log: $log)" >&2
    rm -f "$made"
    dirname "$(rt doc)" >"$keep/toolchain"
    { cd "$repository/crates/$of" && rt "$@" </dev/null 2>&1; echo $? >"$keep/$of.ended"; } | follow "$repository/$log"
    [ "$1" = run ] || [ "$(cat "$keep/$of.ended")" -eq 0 ] || trouble "$of was not built ($log has what rt said)"
    [ -f "$made" ] || trouble "$of was not built ($log has what rt said)"
}

# Keeps what rt says, and shows which crate it proves. It passes over crates that stand proved.
follow() { # LOG
    crates=$(crates_below "$of") shown=0
    while IFS= read -r line; do
        printf '%s\n' "$line"
        case $line in
        "rt: chose --jobs "*" for "*)
            at=${line##* }
            number=$(printf '%s\n' "$crates" | grep -nx "$at" | cut -d : -f 1)
            progress "$name: proving crate $number of $(($(printf '%s\n' "$crates" | wc -l))), $at"
            shown=1
            ;;
        esac
    done >"$1"
    [ "$shown" -eq 0 ] || [ ! -t 2 ] || echo >&2
}

# A line that the next one replaces on a terminal; elsewhere a line each.
progress() { # TEXT
    if [ -t 2 ]; then printf '\r%-60s' "$1"; else printf '%s\n' "$1"; fi >&2
}

# The crates that a crate is proved with, itself last, in the order in which rt proves them: each after
# those that its line of crates.txt names.
crates_below() { # CRATE
    awk -v crate="$1" '
        function visit(c,    names, n, k) {
            if (!(c in needs) || c in seen) return
            seen[c] = 1
            n = split(needs[c], names, /[ \t,]+/)
            for (k = 1; k <= n; k++) visit(names[k])
            print c
        }
        { sub(/#.*/, ""); sub(/^[ \t]+/, "") }
        /^[^ \t:]/ { c = $0; sub(/[ \t:].*/, "", c); if (!sub(/[^:]*:/, "")) $0 = ""; needs[c] = $0 }
        END { visit(crate) }' "$repository/crates.txt"
}
