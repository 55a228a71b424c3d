#!/bin/sh
# Tests the C call against cuecheck, and the console. Variables, paths from the top of the repository:
#   LIB        the static library; without it the library is built
#   CUECHECK  the program that is compared with; without it that is built too
#   SHEETS     the folder of sheets (sheets)
#   CC, CFLAGS, LDLIBS
set -u
cd "$(dirname "$0")/.." || exit 2

if [ -z "${LIB:-}" ]; then
    tools/library.sh || exit 2
    LIB=target/staticlib/libreport.a
fi
if [ -z "${CUECHECK:-}" ]; then
    (cd crates/cuecheck && rt run </dev/null >/dev/null) || exit 2
    CUECHECK=crates/cuecheck/out/cuecheck
fi
SHEETS=${SHEETS:-sheets}
CC=${CC:-cc}
CFLAGS=${CFLAGS:--O2}

dir=$(mktemp -d) || exit 2
trap 'rm -rf "$dir"' EXIT

# CFLAGS and LDLIBS are lists of words.
# shellcheck disable=SC2086
compile() {
    "$CC" -std=c99 -Wall -Wextra -Werror $CFLAGS "console/$1.c" "$LIB" ${LDLIBS:-} -o "$dir/$1" || exit 2
}
compile console
compile test

count=0
pass() {
    count=$((count + 1))
    echo "ok    $1"
}
fail() {
    echo "FAIL  $1: $2"
    exit 1
}

# same NAME FILE [STATUS]: the call, the console and cuecheck answer the same; the console's exit
# status is 0, or STATUS.
same() {
    "$CUECHECK" <"$2" >"$dir/expected" || fail "$1" "cuecheck failed"
    "$dir/test" answer "$2" >"$dir/got" || fail "$1" "the call broke its contract"
    cmp -s "$dir/expected" "$dir/got" || {
        cat "$dir/expected" "$dir/got"
        fail "$1" "cuecheck printed the first, the call answered the second"
    }
    "$dir/console" "$2" >"$dir/printed" 2>"$dir/said"
    status=$?
    [ "$status" -eq "${3:-0}" ] || fail "$1" "the console ended with $status"
    cmp -s "$dir/expected" "$dir/printed" || fail "$1" "the console printed something else"
    if [ "$status" -eq 0 ]; then
        [ ! -s "$dir/said" ] || fail "$1" "the console complained"
    fi
    pass "$1"
}

# report NAME FILE TEXT [STATUS]: the report is this one. TEXT has escapes, so it is the format.
# shellcheck disable=SC2059
report() {
    printf "$3" >"$dir/wanted"
    "$dir/test" answer "$2" >"$dir/got" || fail "$1" "the call broke its contract"
    cmp -s "$dir/wanted" "$dir/got" || {
        cat "$dir/wanted" "$dir/got"
        fail "$1" "the first was wanted, the second answered"
    }
    same "$1" "$2" "${4:-0}"
}

# fault NAME FILE NUMBER LINE: that line is refused, and the console says so in words.
fault() {
    report "$1" "$2" "$(printf 'fault%5d%5d' "$3" "$4")\n" 1
    grep -q "^console: line $4 of .* is refused: " "$dir/said" || fail "$1" "the console did not name the line"
    ! grep -q 'not known' "$dir/said" || fail "$1" "the console does not know the number"
}

# bad NAME NUMBER TEXT: in a sheet of one good line and then TEXT the latter is refused.
# shellcheck disable=SC2059
bad() {
    { printf '   1 w        5\n' && printf "$3"; } >"$dir/sheet"
    fault "damaged: $1" "$dir/sheet" "$2" 2
}

for sheet in "$SHEETS"/*.txt; do
    same "$sheet" "$sheet"
done

: >"$dir/sheet"
report 'an empty sheet' "$dir/sheet" 'class    3    0\norder\nviews\n'
printf '   1 w        5\n   2 r        5\n   1 c         \n   2 c         \n' >"$dir/sheet"
report 'a read of what is not committed' "$dir/sheet" \
    'class    1    2\norder    1    2\nviews    1    2\n'
printf '   2 w        5\n   1 w        5\n   1 c         \n   2 c         \n' >"$dir/sheet"
report 'two writes of an axis' "$dir/sheet" 'class    2    2\norder    2    1\nviews    2    1\n'
printf '   2 r        5\n   1 w        5\n   2 w        5\n   9 w        5\n   9 c         \n   1 c         \n   2 c         \n' >"$dir/sheet"
"$dir/test" answer "$dir/sheet" >"$dir/got" || fail 'a view without an order' 'the call broke its contract'
[ "$(sed -n '2s/ .*//p;3p' "$dir/got")" = "$(printf 'cycle\nviews    2    1    9')" ] ||
    fail 'a view without an order' "$(cat "$dir/got")"
same 'a view without an order' "$dir/sheet"
printf '   1 r        0\n   2 r    65535\n   1 w    65535\n   2 w        0\n   2 c         \n   1 c         \n' >"$dir/sheet"
"$dir/test" answer "$dir/sheet" >"$dir/got" || fail 'neither order nor view' 'the call broke its contract'
[ "$(sed -n '1p;2s/ .*//p;3p' "$dir/got")" = "$(printf 'class    3    0\ncycle\nvnone')" ] ||
    fail 'neither order nor view' "$(cat "$dir/got")"
same 'neither order nor view' "$dir/sheet"

bad 'one byte' 1 ' '
bad 'fifteen bytes' 1 '   1 w        5'
bad 'a line feed too early' 1 '   1 w       5\n\n'
bad 'only a line feed' 1 '\n   1 w        5'
bad 'a line feed too late' 1 '   1 w        5 \n'
bad 'a carriage return' 1 '   1 w        5\r\n'
bad 'no cue' 2 '     w        5\n'
bad 'a cue with a leading zero' 2 '  01 w        5\n'
bad 'a cue at the left' 2 '1    w        5\n'
bad 'a cue with a sign' 2 '  -1 w        5\n'
bad 'a cue of letters' 2 '   x w        5\n'
bad 'a zero byte in the cue' 2 '\0001   w        5\n'
bad 'an unknown letter' 3 '   1 W        5\n'
bad 'no letter' 3 '   1          5\n'
bad 'column 5 not blank' 3 '   1xw        5\n'
bad 'column 7 not blank' 3 '   1 w5       5\n'
bad 'no item' 4 '   1 w         \n'
bad 'an item with a leading zero' 4 '   1 w       05\n'
bad 'an item past 65535' 4 '   1 w    65536\n'
bad 'an item of eight digits' 4 '   1 r 99999999\n'
bad 'an item of letters' 4 '   1 r       ab\n'
bad 'an item at the left' 4 '   1 r 5       \n'
bad 'an item with a commit' 4 '   1 c        5\n'
bad 'an item with an abort' 4 '   1 a 5       \n'
bad 'a byte of 255 with a commit' 4 '   1 c        \377\n'
bad 'cue 0' 11 '   0 w        5\n'
bad 'cue 65' 11 '  65 w        5\n'
bad 'cue 9999' 11 '9999 c         \n'
bad 'shape before cue' 1 '  01xW       05'
bad 'cue before letter' 2 '  01xW       05\n'
bad 'letter before item' 3 '   1xW       05\n'
bad 'item before the number of the cue' 4 '  65 w       05\n'
for end in c a; do
    for letter in r w c a; do
        item=5
        case $letter in c | a) item= ;; esac
        printf '  64 %s %8s\n  64 %s %8s\n' "$end" '' "$letter" "$item" >"$dir/sheet"
        fault "$letter after $end" "$dir/sheet" 12 2
    done
done

# big LINES KIND: a sheet of so many lines.
#   mixed   64 cues read and write a thousand axes, and end in the last 64 of 2,048 lines
#   eight   8 cues, each axis twice, commits in the last 8 of 2,048 lines
#   open    one cue that never ends
big() {
    awk -v lines="$1" -v kind="$2" 'BEGIN {
        cues = kind == "mixed" ? 64 : kind == "eight" ? 8 : 1
        x = 12345
        for (n = 1; n <= lines; n++) {
            x = (x * 1103 + 12347) % 1000003
            if (kind != "open" && n > 2048 - cues && n <= 2048)
                printf "%4d %s %8s\n", n - 2048 + cues, kind == "mixed" && x % 5 == 0 ? "a" : "c", ""
            else if (kind == "mixed")
                printf "%4d %s %8d\n", x % 64 + 1, x % 3 ? "r" : "w", int(x / 64) % 1000
            else if (kind == "eight")
                printf "%4d %s %8d\n", int(n / 260) + 1, n % 2 ? "r" : "w", int(n / 2) * 60
            else
                printf "%4d w %8d\n", 1, n * 31
        }
    }'
}
for kind in mixed eight open; do
    big 2047 $kind >"$dir/sheet"
    same "2,047 lines, $kind" "$dir/sheet"
    big 2048 $kind >"$dir/sheet"
    same "2,048 lines, $kind" "$dir/sheet"
done
big 2049 open >"$dir/sheet"
fault '2,049 lines' "$dir/sheet" 13 2049
big 2100 open >"$dir/sheet"
fault '2,100 lines' "$dir/sheet" 13 2049
{ big 2048 open && printf '   1 w     '; } >"$dir/sheet"
fault '2,048 lines and a cut one' "$dir/sheet" 1 2049
{ big 2048 open && printf '   1 w       05\n'; } >"$dir/sheet"
fault '2,048 lines and a damaged one' "$dir/sheet" 4 2049
{ big 2048 eight && printf '   1 w        5\n'; } >"$dir/sheet"
fault '2,048 lines and one of an ended cue' "$dir/sheet" 12 2049

awk 'BEGIN { for (n = 64; n > 0; n--) printf "%4d w %8d\n%4d c %8s\n", n, 7, n, "" }' >"$dir/sheet"
same '64 committed cues' "$dir/sheet"
"$dir/test" answer "$dir/sheet" >"$dir/got"
[ "$(sed -n 2p "$dir/got")" = "order$(awk 'BEGIN { for (n = 64; n > 0; n--) printf "%5d", n }')" ] ||
    fail 'the longest report' "$(cat "$dir/got")"
[ "$(wc -c <"$dir/got")" -eq 348 ] || fail 'the longest report' 'it is not 348 bytes long'
pass 'the longest report, 348 bytes, in a space of 388'

"$dir/test" short "$dir/sheet" || fail 'spaces of 0 to 387 bytes' 'the call broke its contract'
pass 'spaces of 0 to 387 bytes give 25 and stay as they were'

"$dir/console" --space 387 "$dir/sheet" >"$dir/printed" 2>"$dir/said"
[ $? -eq 2 ] || fail 'console --space 387' 'its exit status is not 2'
[ ! -s "$dir/printed" ] || fail 'console --space 387' 'it printed something'
grep -q 'too short' "$dir/said" || fail 'console --space 387' 'it did not say why'
pass 'console --space 387'
"$dir/console" --space 388 "$dir/sheet" >"$dir/printed" || fail 'console --space 388' 'it failed'
cmp -s "$dir/got" "$dir/printed" || fail 'console --space 388' 'it printed something else'
pass 'console --space 388'
"$dir/console" "$dir/no such sheet" >"$dir/printed" 2>"$dir/said"
[ $? -eq 3 ] || fail 'console without a sheet' 'its exit status is not 3'
pass 'console without a sheet'

echo "$count tests passed"
