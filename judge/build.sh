#!/bin/sh
# Builds the judge into ../target/judge and runs its checks. Needs a C compiler
# alone.  build.sh [build | test | sanitize]
set -eu
cd "$(dirname "$0")"
out=../target/judge
cc=${CC:-cc}
flags="-std=c11 -O2 -Wall -Wextra -Werror"
mkdir -p "$out"

build() {
    $cc $flags plain.c selftest.c -o "$out/selftest"
    $cc $flags plain.c sequences.c -o "$out/sequences"
    $cc $flags plain.c generate.c -o "$out/generate"
    $cc $flags -DPLAIN_ERRORS plain.c generate.c -o "$out/generate-errors"
}

case ${1:-test} in
build)
    build
    ;;
test)
    build
    "$out/selftest"
    "$out/sequences" ../tests/sequences/*.txt
    # Fails by itself where a refusal or a kind of event came up too seldom.
    "$out/generate" > "$out/lines.txt"
    tail -n 5 "$out/lines.txt"
    # The switches change nothing while they are off.
    "$out/generate-errors" > "$out/lines-off.txt"
    cmp "$out/lines.txt" "$out/lines-off.txt"
    ;;
sanitize)
    san="-std=c11 -g -O1 -Wall -Wextra -Werror -fsanitize=address,undefined -fno-sanitize-recover=all"
    $cc $san plain.c selftest.c -o "$out/selftest-san"
    $cc $san plain.c sequences.c -o "$out/sequences-san"
    $cc $san -DPLAIN_ERRORS plain.c generate.c -o "$out/generate-san"
    "$out/selftest-san"
    "$out/sequences-san" ../tests/sequences/*.txt
    "$out/generate-san" > "$out/lines-san.txt"
    tail -n 5 "$out/lines-san.txt"
    ;;
*)
    echo "usage: build.sh [build | test | sanitize]" >&2
    exit 2
    ;;
esac
