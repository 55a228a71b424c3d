#!/bin/sh
# Lists the lines of src/ among which the places of each point of docs/DESIGN-PASS.md are found, and how many lines each list has.
# tools/places.sh [POINT]; run at the top of the repository.
seek() {
    point=$1
    shift
    if [ -z "$only" ] || [ "$only" = "$point" ]; then
        echo "== point $point: $*"
        grep -rnE -e "$@" crates/*/src | tee ${TMPDIR:-/tmp}/places.$$ || true
        echo "lines: $(wc -l < ${TMPDIR:-/tmp}/places.$$)"
        rm -f ${TMPDIR:-/tmp}/places.$$
    fi
}
only=$1
# 1: enums; flags; functions that return a bare number; parameters that are numbers of kinds
seek 1 '^ *(pub )?enum '
seek 1 ': bool,$|, bool\)|Result<bool|\(bool'
seek 1 '-> (u8|u32|usize)$|kind: usize'
# 2: names that stand more than once
if [ -z "$only" ] || [ "$only" = 2 ]; then
    echo "== point 2: functions, types and constants by names that stand more than once"
    grep -rhoE '^ *(pub )?(extern "C" )?(fn|struct|enum|const) [A-Za-z_]+' crates/*/src | sed 's/.* //' | sort | uniq -c | awk '$1 > 1' | tee ${TMPDIR:-/tmp}/places.$$
    echo "lines: $(wc -l < ${TMPDIR:-/tmp}/places.$$)"
    rm -f ${TMPDIR:-/tmp}/places.$$
fi
seek 2 'cue: 0,$|^const FREE|fn free'
# 3: loops
seek 3 '^ *(for|while|loop)\b'
# 4: impls of conversion, comparison and printing; functions that do one of these; comparisons of a byte or a number with two bounds
seek 4 'impl.* (From|TryFrom|fmt::Display|PartialEq|PartialOrd|Clone)\b.* for '
seek 4 "fn (print_[a-z_]+|copy_[a-z]+|number|act|act_of|words|[a-z]+_words)\b"
seek 4 "b'.' <=|<= b'|<= 64\$|<= given|\*b < b'|== other\.number"
# 5: what functions require, and what calls leave of a book
seek 5 '^ *requires'
seek 5 'ensures lays'
# 6: arrays of fixed size, and lengths beside them
seek 6 '\[(u8|u32|usize|bool); [0-9A-Z]+\]|(count|len|given|size): (usize|u8)'
# 7: matches on a kind, a rule or what is sought
seek 7 'match \(?(rule|kind|sought)|kind == '
# 8: proof files
if [ -z "$only" ] || [ "$only" = 8 ]; then
    echo "== point 8: lines of proofs/, by crate"
    for c in crates/*; do
        if [ -d "$c/proofs" ]; then
            echo "$(find "$c/proofs" -name '*.antt' | xargs cat | wc -l) ${c#crates/}"
        fi
    done
    echo "lines: $(find crates/*/proofs -name '*.antt' | xargs cat | wc -l)"
fi
