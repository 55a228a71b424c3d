#!/bin/sh
# differential.sh [COUNT [SEED]]: gives random sheets to the C call and to the reference, and stops
# at the first difference. Variables, paths from the top of the repository:
#   LIB   the static library; without it the library is built
#   CC, CFLAGS, LDLIBS
set -eu
cd "$(dirname "$0")/.."

if [ -z "${LIB:-}" ]; then
    tools/library.sh
    LIB=target/staticlib/libreport.a
fi
CC=${CC:-cc}
CFLAGS=${CFLAGS:--O2}

dir=$(mktemp -d)
trap 'rm -rf "$dir"' EXIT
# CFLAGS and LDLIBS are lists of words.
# shellcheck disable=SC2086
"$CC" -std=c99 -Wall -Wextra -Werror $CFLAGS tools/differential.c tools/brute.c tools/compare.c \
    tools/sheet.c bench/reference.c "$LIB" ${LDLIBS:-} -o "$dir/differential"
"$dir/differential" "${1:-100000}" "${2:-1}"
