#!/bin/sh
# Shows that the compiler refuses each misuse of a ticket in tools/misuses/ for the reason that the
# misuse names, and for nothing else, and that it takes the program without a misuse. A misuse is a
# change of the program crates/tickets: a line 'old: TEXT' that stands once in it, 'new: TEXT' in
# its place, and '# refused: WORDS', with which the compiler's one error goes on after the place in
# the source. Nothing is proved here: `rt try` compiles and runs.
set -eu
cd "$(dirname "$0")/.."

dir=$(mktemp -d)
trap 'rm -rf "$dir"' EXIT
tar -c --exclude=out crates crates.txt | tar -x -C "$dir"
program=$dir/crates/tickets/src/main.rt
cp "$program" "$dir/main.rt"

# said: compiles and runs the program as it stands, and keeps what is said of it
said() {
    (cd "$dir/crates/tickets" && rt try) >"$dir/said" 2>&1
}

# refused WORDS: the program is not taken, and what is said is one error, which has these words
refused() {
    ! said && [ "$(grep -c 'error\[' "$dir/said")" -eq 1 ] && grep -qF ": $1" "$dir/said"
}

if ! said; then
    echo "crates/tickets is not taken without a misuse:"
    tail -5 "$dir/said"
    exit 1
fi
status=0
for misuse in tools/misuses/*.edit; do
    reason=$(sed -n 's/^# refused: \(error\[[a-z0-9-]*\]: .*\)/\1/p' "$misuse")
    if [ -z "$reason" ]; then
        echo "$misuse does not say why it is refused"
        status=1
        continue
    fi
    python3 - "$misuse" "$dir/main.rt" "$program" <<'PY'
import sys
edit, program, to = sys.argv[1:]
text = open(program, encoding="utf-8").read()
lines = open(edit, encoding="utf-8").read().split("\n")
old = [l[5:] for l in lines if l.startswith("old: ")]
new = [l[5:] for l in lines if l.startswith("new: ")]
if not old or len(old) != len(new):
    sys.exit(f"{edit}: its old and new lines do not pair")
for o, n in zip(old, new):
    if text.count(o) != 1:
        sys.exit(f"{edit}: its old text stands {text.count(o)} times in the program")
    text = text.replace(o, n)
open(to, "w", encoding="utf-8").write(text)
PY
    if refused "$reason"; then
        echo "refused  $misuse: $(grep -m1 'error\[' "$dir/said")"
    else
        echo "NOT REFUSED for its reason  $misuse"
        tail -5 "$dir/said"
        status=1
    fi
done
exit $status
