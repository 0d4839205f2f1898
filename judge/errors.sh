#!/bin/sh
# Runs the generator with each builder's error switched on in the plain model,
# and says whether its lines show it. Fails where one is missed.
set -eu
cd "$(dirname "$0")"
out=../target/judge
./build.sh build
"$out/generate-errors" > "$out/errors-none.txt"

# Each error by its number, which is its place here.
errors() {
    cat <<'LIST'
80h clears every register while program-clear is on
80h clears one register while program-clear is off
10h stores the register's byte, no AND
the block field is read by division by pages a block
output stays alive after a refusal
column P is accepted
data in at P is accepted
ECh ends at 769
a page takes one program too many
the LUN after the last is accepted
3 before 1
5 before 4
6 before 3
a finish event ends the selected LUN's work
a read leaves FAIL as it is
FFh leaves the selected LUN
FFh leaves program-clear on
status without the protect line
an odd byte is always answered 13
60h looks at the page bits
78h looks at the block field
7 also for 80h
an erase leaves the counts
EFh takes hold at its first byte
a row refused by 5 selects its LUN
FAIL shows while the LUN works
10h is accepted inside an 85h move
a bad record drops the sequence
no reply room is asked for an odd byte
a protect event to the same level is accepted while busy
a finish event ends output
no rest at the start of the second and third copy
more LUNs than one without feature bit 1
power-on does not look at flags
05h reads LUN 0
data out of a register whose LUN works
06h does not select
an 85h row clears the register
the mark stays after a copyback's 10h
another LUN's 80h row closes the copyback
14 before 5
35h is accepted without optional bit 4
an 80h row refused by 5 closes the copyback
a 60h row closes the copyback
30h leaves the copyback open
D0h leaves the copyback open
FFh leaves the copyback open
a copyback that fails leaves the mark
a lone 85h without optional bit 4 is 3
85h inside a program without optional bit 4 is 1
a row refused by 14 selects its LUN
a move makes a plain program of a copyback
35h leaves FAIL as it is
85h clears every register while program-clear is off
a copyback's 10h refused by 7 closes it
a lone 85h is accepted without optional bit 4
78h of another LUN keeps the memory
a refused cycle keeps the memory
00h straight after output goes on
after 00h the next byte is the first again
the page stays kept behind 78h, for 00h and 05h
a bench refusal loses the memory
05h within the page takes columns below P
the first address after 00h keeps the memory
only a register is kept
a second status loses the memory
78h loses the memory at its command
data out after 00h gives a working LUN's byte
a bare 00h is no sequence for the protect line
behind a status the rest is the memory's
after a bare 00h the rest is the memory's
FFh leaves the memory
05h does not see the page behind 70h
05h where the page is all read is the register's
05h is accepted after a bare 00h
a finish or protect event loses the memory
the same page again fails by page order
a lower page's count is looked at
another block's counts are looked at
feature bit 2 the wrong way round
the top page is left out of the scan
a copyback's 10h is not held to page order
a program out of order fails and is done
only the next page is looked at
page order whatever feature bit 2 says
only counts above 1 are looked at
a program moves the number of blank blocks at its finish
an erase moves it at its finish
a program that fails counts a blank block less
a bad block erased counts one more
another LUN's number moves
each program of a block counts one less
the programmed page's count alone says whether the block was blank
a copyback's 10h leaves the number
FFh sets the number to all blocks
FFh sets the number to 0
power-on counts bad blocks as blank
power-on looks at each block's first page alone
a blank block erased counts one more
13 lets a number of one more than blocks pass
13 lets a LUN past the count have a number
the number does not stop at blocks
the number wraps below 0
the number is walked anew at each 10h and D0h
a 10h or D0h refused by 7 moves the number
power-on walks LUN 0 for every LUN
LIST
}

# All of them, as many at a time as there are processors.
count=$(errors | wc -l)
seq "$count" | xargs -P "$(nproc 2>/dev/null || echo 1)" -I N \
    sh -c '"$1"/generate-errors -x N > "$1"/errors-N.txt || true' sh "$out"

total=0
caught=0
while IFS= read -r what; do
    total=$((total + 1))
    changed=$(diff "$out/errors-none.txt" "$out/errors-$total.txt" | grep -c '^> [0-9]' || true)
    if [ "$changed" -gt 0 ]; then
        caught=$((caught + 1))
        echo "$total caught, $changed lines changed: $what"
    else
        echo "$total MISSED: $what"
    fi
done <<END
$(errors)
END
echo "$caught of $total errors caught"
[ "$caught" -eq "$total" ]
