# shellcheck shell=sh
# What tests/lidnoise and tests/pgmnoise share: each reads it in at the top of the tree, with its program's name in
# $program. A case says in $name what its input is, runs the program, and holds what that printed and said.
: "${program:?}"
room=$(mktemp -d)
trap 'rm -rf "$room"' EXIT
trap 'exit 1' HUP INT TERM
header='answer sigma milli b0 b1 b2 b3 rail rounds passes'
zeros='00000000 0 0 0 0 0 0 0 0'
flat='0 00000000 0 0 0 529 0 0 2 1'
new_line='
'
cases=0

fail() {
    printf '%s\n' "$program: $*"
    exit 1
}

# no_figure NUMBER: the line that says why
no_figure() {
    awk -F ' *[|] *' -v program="$program" -v number="$1" '$2 == number {
        print program ": no figure, number " number ": " $4
        exit
    }' docs/NUMBERS.md
}

# run [WORDS..]: runs the program on standard input.
run() {
    status=0
    "build/bin/$program" "$@" >"$room/printed" 2>"$room/said" || status=$?
}

# fed COMMAND..: runs it on what the command writes into a pipe. Whether that wrote it all is left in $written.
fed() {
    [ -p "$room/pipe" ] || mkfifo "$room/pipe"
    "$@" >"$room/pipe" 2>/dev/null &
    run <"$room/pipe"
    written=yes
    wait $! || written=no
}

# says TEXT: that is all that was said.
says() {
    printf %s "${1:+$1$new_line}" | diff - "$room/said" || fail "$name: says something else"
    [ "$status" -eq 0 ] || fail "$name: status $status"
    cases=$((cases + 1))
}

# prints LINE: the header and LINE are all that was printed.
prints() {
    printf '%s\n' "$header" "$1" | diff - "$room/printed" || fail "$name: prints something else"
}

# answers LINE: it is printed, and the reason is said where there is no figure.
answers() {
    prints "$1"
    case $1 in
    '0 '*) says '' ;;
    *) says "$(no_figure "${1%% *}")" ;;
    esac
}

# streams FLAT SMALL EMPTY WORDS: words, and what cannot be read or written. FLAT is a file of 26 by 26 pixels, all of
# them 128, SMALL one of 25 by 25; EMPTY is the number of an empty input; WORDS is what is said of words.
streams() {
    name='words'
    run box <"$1"
    prints "$flat"
    says "$4"

    name='a library that leaves errno set'
    echo '#include <errno.h>
        __attribute__((constructor)) static void set(void) { errno = ENOENT; }' >"$room/errno.c"
    ${CC:-cc} -shared -fPIC -o "$room/errno.so" "$room/errno.c"
    status=0
    LD_PRELOAD="$room/errno.so" "build/bin/$program" <"$1" >"$room/printed" 2>"$room/said" || status=$?
    prints "$flat"
    says ''

    name='an empty file'
    run </dev/null
    answers "$3 $zeros"

    name='a folder'
    run <"$room"
    prints "$3 $zeros"
    says "$program: standard input: Is a directory$new_line$(no_figure "$3")"

    name='no standard input'
    run <&-
    prints "$3 $zeros"
    says "$program: standard input: Bad file descriptor$new_line$(no_figure "$3")"

    if [ -c /dev/full ]; then
        name='a full disk'
        status=0
        "build/bin/$program" <"$1" >/dev/full 2>"$room/said" || status=$?
        says "$program: standard output: No space left on device"
        status=0
        "build/bin/$program" <"$2" >/dev/full 2>"$room/said" || status=$?
        says "$program: standard output: No space left on device$new_line$(no_figure 5)"
    else
        echo "$program: skipped a full disk: there is no /dev/full"
    fi

    name='no standard output'
    status=0
    "build/bin/$program" <"$2" >&- 2>"$room/said" || status=$?
    says "$program: standard output: Bad file descriptor$new_line$(no_figure 5)"

    name='no standard error'
    status=0
    "build/bin/$program" <"$2" >"$room/printed" 2>&- || status=$?
    : >"$room/said"
    prints '5 00000000 0 0 0 484 0 0 0 1'
    says ''
}

# without_end FILE: the file, and zeros after it
without_end() {
    cat "$1" && exec head -c 100000000 /dev/zero
}

# reads MOST FILE LINE: so many bytes of a file that is longer, and what follows is left to the next reader; of a long
# input through a pipe no more than it needs. Either way it answers LINE.
reads() {
    name="a longer file"
    without_end "$2" | head -c 10000 >"$room/longer"
    exec 3<"$room/longer"
    run <&3
    left=$(wc -c <&3)
    exec 3<&-
    [ "$left" -eq $((10000 - $1)) ] || fail "$name: $left bytes of 10,000 are left to the next reader"
    answers "$3"
    name="a long input"
    fed without_end "$2"
    [ "$written" = no ] || fail "$name: it is read to its end"
    answers "$3"
}

# page EXAMPLES LINE..: the manual page lists these lines, and it has so many examples, which print and say what it has.
page() {
    manual=man/$program.1
    examples=$1
    shift
    for line; do
        sed -e :a -e '/\\$/{N;s/\\\n//;ba' -e '}' "$manual" | grep -Fq "$line" || fail "$manual has not the line $line"
    done
    sed -n '/^[.]ft CR/,/^[.]ft$/p' "$manual" | sed -e '/^[.]ft/d' -e 's/\\e/\\/g' -e 's/\\-/-/g' >"$room/examples"
    sed -n 's/^[$] //p' "$room/examples" >"$room/commands"
    sed '/^[$] /d' "$room/examples" >"$room/expected"
    [ "$(wc -l <"$room/commands")" -eq "$examples" ] || fail "$manual has not $examples examples"
    PATH=build/bin:$PATH sh "$room/commands" >"$room/printed" 2>&1
    diff "$room/expected" "$room/printed" || fail "the examples of $manual print something else"
}
