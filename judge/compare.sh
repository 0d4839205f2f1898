#!/bin/sh
# Compares the plain C model with the proved one, on the traces that both make.
#   compare.sh                  writes the C program's lines to ../crates/test_judge/stdout,
#                               which the gate holds the proved program to
#   compare.sh --stored         says whether that file is what the C program writes
#   compare.sh --check [SEED [COUNT]]
#                               runs both, the proved one as ../target/bin/test_judge (built by
#                               tools/build-program test_judge), and says where their lines first differ: the
#                               line, and in it the trace, the record and the two replies. Without
#                               SEED the stored file is compared too
# -x ERROR, before SEED, switches a builder's error of errors.sh on in the C model, to see that
# it is found. Needs a C compiler.
set -eu
cd "$(dirname "$0")"
out=../target/judge
stored=../crates/test_judge/stdout
proved=${JUDGED:-../target/bin/test_judge}
run=../tools/run-x86     # the program is one for x86-64; on Arm the kit's emulator runs it
./build.sh build

if [ $# -eq 0 ]; then
    "$out/generate" > "$out/lines.txt"
    cp "$out/lines.txt" "$stored"
    echo "$stored: $(wc -l < "$stored") lines"
    exit 0
fi
if [ "$1" = --stored ]; then
    "$out/generate" > "$out/lines.txt"
    cmp -s "$out/lines.txt" "$stored" || { echo "DIFFERENT: $stored is not what the C program writes" >&2; exit 1; }
    echo "$stored: $(wc -l < "$stored") lines, as the C program writes them"
    exit 0
fi
[ "$1" = --check ] || { sed -n '2,13s/^# \{0,1\}//p' compare.sh >&2; exit 2; }
shift
plain=$out/generate
error=
if [ "${1:-}" = -x ]; then
    plain="$out/generate-errors -x $2"
    error=$2
    shift 2
fi
[ -x "$proved" ] || { echo "compare: no $proved; run tools/build-program test_judge first" >&2; exit 2; }

# Both files, and the first line in which they differ.
first_difference() {
    awk 'NR == FNR { a[FNR] = $0; n = FNR; next }
         a[FNR] != $0 { print FNR; found = 1; exit }
         END { if (!found && FNR != n) print (FNR < n ? FNR : n) + 1 }' "$1" "$2"
}

$plain "$@" > "$out/plain.txt" || true
"$run" "$proved" "$@" > "$out/proved.txt"
if [ $# -eq 0 ] && [ -z "$error" ] && ! cmp -s "$out/plain.txt" "$stored"; then
    echo "DIFFERENT: $stored is not what the C program writes; run compare.sh"
    exit 1
fi
if cmp -s "$out/plain.txt" "$out/proved.txt"; then
    grep '^total' "$out/plain.txt"
    echo "same: $(grep -c '^[0-9]' "$out/plain.txt") lines"
    exit 0
fi

n=$(first_difference "$out/plain.txt" "$out/proved.txt")
echo "DIFFERENT at line $n"
echo "  plain:  $(sed -n "${n}p" "$out/plain.txt")"
echo "  proved: $(sed -n "${n}p" "$out/proved.txt")"
where=$(sed -n "${n}p" "$out/plain.txt" | awk '/^[0-9]/ { print $1, $2 }')
[ -n "$where" ] || exit 1

# shellcheck disable=SC2086
$plain -t $where "$@" > "$out/plain-one.txt"
# shellcheck disable=SC2086
"$run" "$proved" -t $where "$@" > "$out/proved-one.txt"
n=$(first_difference "$out/plain-one.txt" "$out/proved-one.txt")
echo "part and kind $where; the first difference on the way (trace number, what, four numbers, digest):"
[ "$n" -le 8 ] || echo "  .."
awk -v n="$n" 'FNR >= n - 8 && FNR < n { print "  both:   " $0 }' "$out/plain-one.txt"
echo "  plain:  $(sed -n "${n}p" "$out/plain-one.txt")"
echo "  proved: $(sed -n "${n}p" "$out/proved-one.txt")"
exit 1
