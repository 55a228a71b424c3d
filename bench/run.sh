#!/bin/sh
# Times the C call beside a plain C implementation of the same report. Arguments: further sheets.
# Variables, paths from the top of the repository:
#   LIB   the static library; without it the library is built
#   CC, CFLAGS (the same for all that is C here), LDLIBS
set -eu
cd "$(dirname "$0")/.."

if [ -z "${LIB:-}" ]; then
    tools/library.sh
    LIB=target/staticlib/libreport.a
fi
CC=${CC:-cc}
CFLAGS=${CFLAGS:--O2}

dir=$(mktemp -d)
trap 'rm -rf "$dir"' EXIT
# CFLAGS and LDLIBS are lists of words.
# shellcheck disable=SC2086
"$CC" -std=c99 -Wall -Wextra -Werror $CFLAGS bench/bench.c bench/reference.c tools/compare.c \
    tools/sheet.c "$LIB" ${LDLIBS:-} -o "$dir/bench"
echo "$CC $CFLAGS, $LIB"
"$dir/bench" "$@"
