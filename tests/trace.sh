#!/usr/bin/env bash
# The command bin/trace: each example against its expected text, exit statuses, standard error, standard input, several sheets, options,
# refusals in words, what cannot be read or written, sheets of the greatest lengths, and when the program is built. Its last line adds up
# the tests.
set -euo pipefail
cd "$(dirname "$0")/.."

# The command builds the program where that is missing or older than its sources.
bin/trace examples/small.sheet >/dev/null || { echo "the program cannot be run"; exit 1; }

folder=$(mktemp -d)
trap 'rm -rf "$folder"' EXIT
command=$PWD/bin/trace
passed=0
failed=0

# Compares what a command printed and its exit status with what they are to be.
expect() { # TEST STATUS TEXT ERROR COMMAND..
    local status=0
    "${@:5}" >"$folder/text" 2>"$folder/error" || status=$?
    printf '%s' "$3" >"$folder/text.expected"
    printf '%s' "$4" >"$folder/error.expected"
    if [ "$status" -eq "$2" ] && diff "$folder/text.expected" "$folder/text" && diff "$folder/error.expected" "$folder/error"; then
        passed=$((passed + 1))
        echo "passed: $1"
    else
        failed=$((failed + 1))
        echo "FAILED: $1 (status $status, to be $2)"
    fi
}

# The bytes of a file with its last newline kept, which $(..) alone would take away.
whole() { cat "$1" && printf x; }
small=$(whole examples/small.expected); small=${small%x}
large=$(whole examples/large.expected); large=${large%x}
filling=$(whole examples/filling.expected); filling=${filling%x}
refused=$(whole examples/unknown-code.expected); refused=${refused%x}
words="refused 5 at byte 18: unknown code 7, port 1 of server 3"$'\n'
told="trace: examples/unknown-code.sheet: $words"

expect "the small example" 0 "$small" "" "$command" examples/small.sheet
expect "the large example" 0 "$large" "" "$command" examples/large.sheet
expect "the example of a hall that is not full" 0 "$filling" "" "$command" examples/filling.sheet
expect "an unknown code is refused with its place" 1 "$refused" "$told" "$command" examples/unknown-code.sheet
expect "several sheets are traced in order" 0 "$small$large$small" \
    $'== examples/small.sheet\n== examples/large.sheet\n== examples/small.sheet\n' \
    "$command" examples/small.sheet examples/large.sheet examples/small.sheet
expect "a refused sheet does not stop the next" 1 "$refused$small" \
    "== examples/unknown-code.sheet"$'\n'"$told== examples/small.sheet"$'\n' "$command" examples/unknown-code.sheet examples/small.sheet

from() { "$command" "${@:2}" <"$1"; } # SHEET ARGUMENT..
expect "standard input where nothing is named" 0 "$small" "" from examples/small.sheet
expect "standard input for -" 0 "$large$small" $'== examples/large.sheet\n== standard input\n' \
    from examples/small.sheet examples/large.sheet -
expect "a refusal on standard input" 1 "$refused" "trace: standard input: $words" from examples/unknown-code.sheet
piped() { (head -c 100; sleep 0.1; cat) <"$1" | "$command"; }
expect "a sheet that comes through a pipe in two parts" 0 "$large" "" piped examples/large.sheet

# What cannot be read is told, and is not taken for an empty or a short sheet.
missing="cannot be read: No such file or directory"$'\n'
expect "a missing file" 2 "" "trace: examples/none.sheet: $missing" "$command" examples/none.sheet
expect "a folder" 2 "" $'trace: examples: cannot be read: Is a directory\n' "$command" examples
expect "a folder on standard input" 2 "" $'trace: standard input: cannot be read: Is a directory\n' from examples
expect "a missing file does not stop the next, and outweighs a refusal" 2 "$small$refused" \
    "== none"$'\n'"trace: none: $missing== examples/small.sheet"$'\n'"== examples/unknown-code.sheet"$'\n'"$told" \
    "$command" none examples/small.sheet examples/unknown-code.sheet
closed_input() { "$command" "$@" <&-; }
expect "a closed standard input" 2 "" $'trace: standard input: cannot be read: it is closed\n' closed_input
expect "a closed standard input, which is not asked for" 0 "$small" "" closed_input examples/small.sheet
if [ "$(id -u)" -ne 0 ]; then # nothing is forbidden to root
    cp examples/small.sheet "$folder/secret.sheet"
    chmod 0 "$folder/secret.sheet"
    expect "a file without permission" 2 "" "trace: $folder/secret.sheet: cannot be read: Permission denied"$'\n' \
        "$command" "$folder/secret.sheet"
fi
if [ -r /proc/self/mem ]; then
    expect "a file whose first byte cannot be read" 2 "" $'trace: /proc/self/mem: cannot be read: Input/output error\n' \
        "$command" /proc/self/mem
    # The memory of this shell from 5,000 bytes before the end of its stack, behind which nothing can be read.
    stack_end() {
        local range
        range=$(sed -n 's/ .*\[stack\]$//p' "/proc/$$/maps")
        exec 5<"/proc/$$/mem"
        dd bs=1 "skip=$((16#${range#*-} - 5000))" count=0 status=none <&5
        "$command" <&5
        local status=$?
        exec 5<&-
        return "$status"
    }
    expect "a read error after 5,000 bytes" 2 "" $'trace: standard input: cannot be read: Input/output error\n' stack_end
fi

: >"$folder/empty.sheet"
expect "the empty sheet" 1 "REFUSED 10 0"$'\n' "trace: $folder/empty.sheet: refused 10 at byte 0: the sheet is empty"$'\n' \
    "$command" "$folder/empty.sheet"
long="refused 10 at byte 65536: the sheet is too long: it has more than 65536 bytes"$'\n'
head -c 65537 /dev/zero >"$folder/long.sheet"
expect "a sheet of 65,537 bytes" 1 "REFUSED 10 65536"$'\n' "trace: $folder/long.sheet: $long" "$command" "$folder/long.sheet"
head -c 1000000 /dev/zero >"$folder/huge.sheet"
expect "a sheet of a million bytes" 1 "REFUSED 10 65536"$'\n' "trace: $folder/huge.sheet: $long" "$command" "$folder/huge.sheet"

# The small example's hall and packet, 6,548 times: the most packets of a sheet of that hall.
line=$(sed -n 2p examples/small.expected)
packets=6548
numbers=$(seq $packets)
# shellcheck disable=SC2086 # a word for each packet
{ head -c 51 examples/small.sheet; printf '\0\0\031\224'; printf '\0\0\0\0\0\0\0\023\005\017%.0s' $numbers; } >"$folder/largest.sheet"
[ "$(wc -c <"$folder/largest.sheet")" -eq 65535 ] || { echo "the largest sheet has not 65,535 bytes"; exit 1; }
# shellcheck disable=SC2086 # a word for each line
many=$(head -n 1 examples/small.expected; printf "$line%.0s\n" $numbers; echo "END $packets")$'\n'
expect "all $packets lines of a largest sheet" 0 "$many" "" "$command" "$folder/largest.sheet"
cp "$folder/largest.sheet" "$folder/surplus.sheet"
printf '\0' >>"$folder/surplus.sheet"
left="the sheet has bytes left over: its third count is"
expect "a surplus byte, 65,536 bytes in all" 1 "REFUSED 10 65535"$'\n' \
    "trace: $folder/surplus.sheet: refused 10 at byte 65535: $left 6548, so it should have 65535 bytes, and it has 65536"$'\n' \
    "$command" "$folder/surplus.sheet"

# The one hall of k = 3 that a sheet can hold, n = 2, with as many packets as go on it: each from server 0 to itself.
most=5829
{
    printf '\0\0\0\003\002\003\0\0\0\034\070'
    head -c 7224 /dev/zero | tr '\0' '\1'
    printf '\0\0\026\305'
    head -c $((10 * most)) /dev/zero
} >"$folder/deep.sheet"
deep=$(echo "HALL 2 3 0"; yes "0 0 DELIVERED 0 0 : 0" | head -n $most; echo "END $most")$'\n'
expect "the hall of n = 2 and k = 3 with $most packets" 0 "$deep" "" "$command" "$folder/deep.sheet"

# A hall of n = 6 and k = 2 with 42 of its 43 DCell1s, and so many packets: the sheet has room for one fewer than that of the full hall.
part_of_six() { # THIRD-COUNT PACKETS
    printf '\0\0\0\007\006\002\0\0\0\0\052\0\0\025\052'
    head -c 5418 /dev/zero | tr '\0' '\1'
    printf %b "$1"
    head -c $((10 * $2)) /dev/zero
}
most=6009
part_of_six '\0\0\027\0171' $most >"$folder/part.sheet"
all=$(echo "HALL 6 2 0"; yes "0 0 DELIVERED 0 0 : 0" | head -n $most; echo "END $most")$'\n'
expect "the hall of n = 6 and k = 2, which is not full, with $most packets" 0 "$all" "" "$command" "$folder/part.sheet"
part_of_six '\0\0\027\0172' $((most + 1)) >"$folder/longer.sheet"
expect "one packet more is too long" 1 "REFUSED 10 65536"$'\n' "trace: $folder/longer.sheet: $long" "$command" "$folder/longer.sheet"

# Every byte value reaches the program as it stands: a packet with the TTL of that value, against the program by itself.
every_value() {
    for i in $(seq 0 255); do printf '\0\0\0\0\0\0\0\023\005%b' "\\0$(printf %o "$i")"; done >"$folder/values"
    { head -c 51 examples/small.sheet; printf '\0\0\001\0'; cat "$folder/values"; } >"$folder/values.sheet"
    target/bin/trace <"$folder/values.sheet"
}
values=$(every_value)$'\n'
expect "every value of a byte" 0 "$values" "" "$command" "$folder/values.sheet"

# What cannot be written is told, and is never status 0.
unwritten="trace: standard output cannot be written:"
full() { "$command" "$@" >/dev/full; }
expect "a full standard output" 2 "" "$unwritten No space left on device"$'\n' full "$folder/largest.sheet"
expect "a full standard output and a short trace" 2 "" "$unwritten No space left on device"$'\n' full examples/small.sheet
expect "a full standard output and a refusal" 2 "" "$unwritten No space left on device"$'\n' full examples/unknown-code.sheet
expect "a full standard output and the usage" 2 "" "$unwritten No space left on device"$'\n' full --help
closed_output() { "$command" "$@" >&-; }
expect "a closed standard output" 2 "" "$unwritten it is closed"$'\n' closed_output examples/small.sheet
closed_pipe() { "$command" "$1" | head -n 1; }
expect "a pipe that is closed after a line" 2 "HALL 4 1 0"$'\n' "$unwritten Broken pipe"$'\n' closed_pipe "$folder/largest.sheet"
ignored_pipe() { (trap '' PIPE; closed_pipe "$1"); }
expect "a pipe that is closed, where the signal is ignored" 2 "HALL 4 1 0"$'\n' "$unwritten Broken pipe"$'\n' \
    ignored_pipe "$folder/largest.sheet"
limited() { (ulimit -f 16; "$command" "$1" >"$folder/limited"); }
expect "room for 16 KiB of a trace" 2 "" "$unwritten File too large"$'\n' limited "$folder/largest.sheet"
no_room() { (ulimit -f 0; TMPDIR=$folder/none "$command" "$1") | cat; }
expect "no room for temporary files" 0 "$many" "" no_room "$folder/largest.sheet"
full_error() { "$command" "$@" 2>/dev/full; }
expect "a full standard error" 2 "$refused" "" full_error examples/unknown-code.sheet
closed_error() { "$command" "$@" 2>&-; }
expect "a closed standard error" 2 "$refused" "" closed_error examples/unknown-code.sheet
expect "a closed standard error, where nothing is said" 0 "$small" "" closed_error examples/small.sheet

# A refusal in words: an example, by default the small one, with other bytes at an offset, or cut, or with more behind it.
changed() { # OFFSET LENGTH BYTES [SHEET]
    local sheet=${4-examples/small.sheet}
    head -c "$1" "$sheet"
    printf %b "$3"
    tail -c "+$(($1 + $2 + 1))" "$sheet"
}
refuses() { # NUMBER PLACE WORDS, the sheet on standard input
    cat >"$folder/fault.sheet"
    expect "refusal $1 at byte $2: $3" 1 "REFUSED $1 $2"$'\n' "trace: $folder/fault.sheet: refused $1 at byte $2: $3"$'\n' \
        "$command" "$folder/fault.sheet"
}
refuses 4 0 "the first count is 4294967295, and it must be 3 or 7" < <(changed 0 4 '\0377\0377\0377\0377')
refuses 1 4 "n is 9, and it must be 2 to 8" < <(changed 4 1 '\011')
refuses 1 5 "k is 4, and it must be 0 to 3" < <(changed 5 1 '\04')
refuses 1 6 "b is 2, and it must be 0 or 1" < <(changed 6 1 '\02')
refuses 1 6 "b is 1, and it must be 0, because k is 0" < <(changed 5 2 '\00\01')
refuses 4 7 "the second count is 41, and it must be 40 (servers x ports: 20 x 2)" < <(changed 10 1 '\051')
refuses 4 7 "the second count is 40, and it must be 110523168 (servers x ports: 27630792 x 4)" < <(changed 4 2 '\010\03')
refuses 5 50 "unknown code 255, port 1 of server 19" < <(changed 50 1 '\0377')
two() { # the small example with a second packet, of the given bytes
    changed 54 1 '\02'
    printf %b "$1"
}
refuses 2 55 "packet 1 of 1 has the source 20, and the servers are 0 to 19" < <(changed 58 1 '\024')
refuses 2 69 "packet 2 of 2 has the dst 4294967295, and the servers are 0 to 19" < <(two '\0\0\0\023\0377\0377\0377\0377\05\017')
refuses 8 73 "packet 2 of 2 has the retry 16, and it must be 0 to 15" < <(two '\0\0\0\023\0\0\0\0\020\017')
refuses 10 65 "$left 1, so it should have 65 bytes, and it has 67" < <(changed 65 0 ab)
cut() { # LENGTH WORDS [SHEET]
    refuses 10 "$1" "the sheet is cut: it ends at byte $1, $2" < <(head -c "$1" "${3-examples/small.sheet}")
}
cut 2 "inside the first count"
cut 4 "before n"
cut 6 "before b"
cut 7 "before the second count"
cut 10 "inside the second count"
cut 11 "inside the hall table, before port 0 of server 0"
cut 50 "inside the hall table, before port 1 of server 19"
cut 51 "before the third count"
cut 53 "inside the third count"
cut 55 "before packet 1 of 1"
cut 64 "inside packet 1 of 1"
refuses 10 65 "the sheet is cut: it ends at byte 65, before packet 2 of 4294967295" < <(changed 51 4 '\0377\0377\0377\0377')

# The same of a hall that is not full: behind b stands the count of DCell1s, and all else stands four bytes later.
part=examples/filling.sheet
range="and it must be 0 to 6: the sheet of a full hall has no such count"
refuses 1 7 "the count of DCell1s is 7, $range" < <(changed 10 1 '\07' $part)
refuses 1 7 "the count of DCell1s is 8, $range" < <(changed 10 1 '\010' $part)
refuses 1 7 "the count of DCell1s is 4294967295, $range" < <(changed 7 4 '\0377\0377\0377\0377' $part)
refuses 1 7 "the count of DCell1s is 301, and it must be 0 to 300: the sheet of a full hall has no such count" \
    < <(changed 5 6 '\03\0\0\0\01\055' $part)
refuses 1 7 "there is a count of DCell1s, and there must be none, because k is 1" < <(changed 3 4 '\07\04\01\0\0\0\0\01')
refuses 1 7 "there is a count of DCell1s, and there must be none, because k is 0" < <(changed 5 6 '\0\0\0\0\0\0' $part)
refuses 1 6 "b is 2, and it must be 0 or 1" < <(changed 6 5 '\02\0\0\0\07' $part)
refuses 4 11 "the second count is 127, and it must be 126 (servers x ports: 42 x 3)" < <(changed 14 1 '\0177' $part)
refuses 4 7 "the second count is 3, and it must be 126 (servers x ports: 42 x 3)" < <(changed 3 1 '\03' $part)
refuses 5 140 "unknown code 5, port 2 of server 41" < <(changed 140 1 '\05' $part)
refuses 2 145 "packet 1 of 6 has the source 42, and the servers are 0 to 41" < <(changed 148 1 '\052' $part)
refuses 8 203 "packet 6 of 6 has the retry 16, and it must be 0 to 15" < <(changed 203 1 '\020' $part)
refuses 10 205 "$left 6, so it should have 205 bytes, and it has 206" < <(changed 205 0 a $part)
cut 6 "before b" $part
cut 7 "before the count of DCell1s" $part
cut 10 "inside the count of DCell1s" $part
cut 11 "before the second count" $part
cut 14 "inside the second count" $part
cut 15 "inside the hall table, before port 0 of server 0" $part
cut 140 "inside the hall table, before port 2 of server 41" $part
cut 141 "before the third count" $part
cut 145 "before packet 1 of 6" $part
cut 204 "inside packet 6 of 6" $part

# The codes and packets of that hall with other counts: nothing fitted, and the full hall, whose first section has 3 bytes.
changed 10 1 '\0' $part >"$folder/nothing.sheet"
expect "a hall of which nothing is fitted" 0 "\
HALL 2 2 1
4 16 DROP4 0 0 : 4
2 8 DROP4 0 0 : 2
0 20 DROP4 0 0 : 0
20 0 DROP4 0 0 : 20
20 22 DROP2 0 0 : 20
20 20 DELIVERED 0 0 : 20
END 6
" "" "$command" "$folder/nothing.sheet"
changed 3 8 '\03\02\02\01' $part >"$folder/full.sheet"
expect "the same hall when it is full" 0 "\
HALL 2 2 1
4 16 DELIVERED 4 0 : 4 1 12 13 16
2 8 DELIVERED 3 1 : 2 18 19 8
0 20 DELIVERED 3 0 : 0 2 18 20
20 0 DELIVERED 3 0 : 20 18 2 0
20 22 DELIVERED 3 0 : 20 18 19 22
20 20 DELIVERED 0 0 : 20
END 6
" "" "$command" "$folder/full.sheet"

mkdir "$folder/a folder"
cp examples/small.sheet "$folder/a folder/a sheet"
cp examples/unknown-code.sheet "$folder/a folder/-sheet"
in_folder() { (cd "$folder/a folder" && "$@"); }
expect "another folder and a name with a space" 0 "$small" "" in_folder "$command" "a sheet"
expect "a name that begins with a dash" 1 "$refused" "trace: ./-sheet: $words" in_folder "$command" ./-sheet
expect "a name that begins with a dash, behind --" 1 "$refused" "trace: -sheet: $words" in_folder "$command" -- -sheet
expect "the command by a relative path" 0 "$small" "" bash -c 'cd examples && ../bin/trace small.sheet'
mkdir "$folder/links"
ln -s "$command" "$folder/links/by its path"
ln -s "../links/by its path" "$folder/links/by a link"
ln -s "$PWD/bin" "$folder/links/bin"
expect "the command by a symbolic link to its path" 0 "$small" "" "$folder/links/by its path" examples/small.sheet
expect "the command by a symbolic link to a link" 0 "$small" "" "$folder/links/by a link" examples/small.sheet
expect "the command by a symbolic link to its folder" 0 "$small" "" "$folder/links/bin/trace" examples/small.sheet
expect "the command by a symbolic link in the path" 0 "$small" "" env PATH="$folder/links:$PATH" "by a link" examples/small.sheet

# The options.
usage=$("$command" --help && printf x); usage=${usage%x}
expect "the usage, asked for" 0 "$usage" "" "$command" -h
expect "an unknown option" 2 "" $'trace: --all: there is no such option; trace --help names them\n' "$command" --all
lost=$(grep -v DELIVERED examples/large.expected)$'\n'
mean="mean of the delivered packets:"
summary="packets 24, delivered 15, lost 9 (DROP1 2, DROP2 2, DROP3 3, DROP4 2); $mean links 4.73, reroutes 0.47"$'\n'
expect "the lost packets alone" 0 "$lost" "" "$command" --lost examples/large.sheet
expect "no packet that was lost" 0 $'HALL 4 1 0\nEND 1\n' "" "$command" --lost examples/small.sheet
expect "a summary" 0 "$large" "trace: examples/large.sheet: $summary" "$command" --summary examples/large.sheet
expect "a summary and the lost packets, the options behind the sheet" 0 "$lost" "trace: examples/large.sheet: $summary" \
    "$command" examples/large.sheet --lost --summary
none="DROP2 0, DROP3 0, DROP4 0); $mean links -, reroutes -"$'\n'
changed 64 1 '\0' >"$folder/lost.sheet"
expect "a summary where no packet was delivered" 0 $'HALL 4 1 0\n0 19 DROP1 0 0 : 0\nEND 1\n' \
    "trace: standard input: packets 1, delivered 0, lost 1 (DROP1 1, $none" from "$folder/lost.sheet" --summary
head -c 51 examples/small.sheet >"$folder/none.sheet"
printf '\0\0\0\0' >>"$folder/none.sheet"
expect "a summary where there is no packet" 0 $'HALL 4 1 0\nEND 0\n' \
    "trace: standard input: packets 0, delivered 0, lost 0 (DROP1 0, $none" from "$folder/none.sheet" --summary
expect "a summary of several sheets, one of them refused" 1 "$refused$large" \
    "== examples/unknown-code.sheet"$'\n'"$told== examples/large.sheet"$'\n'"trace: examples/large.sheet: $summary" \
    "$command" --summary examples/unknown-code.sheet examples/large.sheet

# The shells and the versions of awk that are here.
both="== examples/large.sheet"$'\n'"trace: examples/large.sheet: $summary== examples/unknown-code.sheet"$'\n'"$told"
under() { "$@" bin/trace --lost --summary examples/large.sheet examples/unknown-code.sheet; }
full_under() { "$@" bin/trace "$folder/largest.sheet" >/dev/full; }
closed_under() { "$@" bin/trace <&-; }
for shell in dash bash "bash --posix" "busybox sh"; do
    read -r -a by <<<"$shell"
    command -v "${by[0]}" >/dev/null 2>&1 || continue
    expect "the command under $shell" 1 "$lost$refused" "$both" under "${by[@]}"
    expect "all $packets lines under $shell" 0 "$many" "" "${by[@]}" bin/trace "$folder/largest.sheet"
    expect "a full standard output under $shell" 2 "" "$unwritten No space left on device"$'\n' full_under "${by[@]}"
    expect "a closed standard input under $shell" 2 "" $'trace: standard input: cannot be read: it is closed\n' closed_under "${by[@]}"
done
for awk in mawk gawk original-awk busybox; do
    command -v "$awk" >/dev/null 2>&1 || continue
    mkdir "$folder/$awk"
    ln -s "$(command -v "$awk")" "$folder/$awk/awk"
    by=(env PATH="$folder/$awk:$PATH")
    expect "the command with the awk of $awk" 1 "$lost$refused" "$both" under "${by[@]}"
    expect "all $packets lines with the awk of $awk" 0 "$many" "" "${by[@]}" bin/trace "$folder/largest.sheet"
    expect "a full standard output with the awk of $awk" 2 "" "$unwritten No space left on device"$'\n' full_under "${by[@]}"
done

# A program that stops before its end, which is a stand-in here: no status but 2, whatever it printed.
copy="$folder/a copy"
mkdir -p "$copy/bin" "$copy/target/bin"
cp bin/trace "$copy/bin/trace"
stopped() { # TEST TEXT STATUS
    printf '#!/bin/sh\nprintf "%s"\n%s\n' "$2" "$3" >"$copy/target/bin/trace"
    chmod +x "$copy/target/bin/trace"
    expect "a program that $1" 2 "$(printf %b "$2")${2:+$'\n'}" \
        $'trace: examples/small.sheet: the trace is cut short: the program stopped before its end\n' "$copy/bin/trace" examples/small.sheet
}
stopped "prints nothing" '' 'exit 0'
stopped "fails" '' 'exit 1'
stopped "stops behind the hall" 'HALL 4 1 0' 'exit 0'
stopped "stops in a line" 'HALL 4 1 0\n0 19 DELI' 'exit 0'
stopped "stops behind a packet" 'HALL 4 1 0\n0 19 DELIVERED 4 1 : 0 4 7 17 19' 'exit 0'
stopped "stops in its last line" 'HALL 4 1 0\n0 19 DELIVERED 4 1 : 0 4 7 17 19\nEND' 'exit 0'
stopped "leaves out a packet" 'HALL 4 1 0\n0 19 DELIVERED 4 1 : 0 4 7 17 19\nEND 2' 'exit 0'
stopped "goes on behind its end" 'HALL 4 1 0\nEND 0\n0 19 DELIVERED 4 1 : 0 4 7 17 19' 'exit 0'
stopped "stops in a refusal" 'REFUSED 5' 'exit 0'
rm -r "$copy/target"

# The first use, in a copy without the program: a stand-in for the prover puts the program there, or there is no prover.
mkdir -p "$folder/tools" "$copy/crates/trace"
for tool in sh awk cat cp date dirname find head mkdir mv od sed tail touch; do ln -s "$(command -v "$tool")" "$folder/tools/$tool"; done
sheet=$PWD/examples/small.sheet
first() { PATH="$folder/tools" "$copy/bin/trace" "$@"; }
yet="trace: the program is not built yet"
lacking="and the Rattle toolchain (rt) is not installed"$'\n'
expect "the first use without the toolchain" 2 "" "$yet, $lacking" first "$sheet"
# The stand-in reads what it is given, so that a sheet on standard input would be lost, prints as `rt run` does, and then runs the given lines.
prover() { # LINES
    {
        printf '#!/bin/sh\n[ "$*" = run ] && [ "${PWD##*/}" = trace ] || exit 1\n'
        printf 'cat >/dev/null\necho "trace proved" >&2\necho "REFUSED 10 0"\n%s\n' "$1"
    } >"$folder/tools/rt"
    chmod +x "$folder/tools/rt"
}
put="mkdir -p out && cp '$PWD/target/bin/trace' out/trace"
builds="it is now proved and built, which may take about five minutes"$'\n'"trace proved"$'\n'
cannot="trace: the program could not be built"$'\n'
prover "$put"
expect "the first use builds the program and prints the trace alone" 0 "$small" "$yet: $builds" first "$sheet"
expect "the second use builds nothing" 0 "$small" "" first "$sheet"
rm -r "$copy/target"
first_from() { first - <"$1"; }
expect "the first use with a sheet on standard input" 0 "$small" "$yet: $builds" first_from "$sheet"

# A program that is older than one of its sources; the program itself is as old as all of them but the one.
sources="crates.txt crates/trace/src/main.rt crates/forward/specs/Steps.antt crates/forward/proofs/step/Proof.antt"
for source in $sources; do
    mkdir -p "$copy/$(dirname "$source")"
    touch "$copy/$source"
done
change() { # SOURCE
    find "$copy/crates" "$copy/crates.txt" "$copy/target/bin/trace" -exec touch -t 200001010000 {} +
    touch -t 200101010000 "$copy/$1"
}
for source in $sources; do
    change "$source"
    expect "a program that is older than $source is built again" 0 "$small" \
        "trace: the program is older than $source: $builds" first "$sheet"
    expect "a program that was built again for $source is not built twice" 0 "$small" "" first "$sheet"
done
main=crates/trace/src/main.rt
older="trace: the program is older than $main"
change "$main"
prover ""
expect "a program that the prover finds unchanged" 0 "$small" "$older: $builds" first "$sheet"
expect "a program that the prover found unchanged is not built twice" 0 "$small" "" first "$sheet"
change "$main"
prover "$put; touch ../../$main"
expect "a source that changes while the program is built" 0 "$small" "$older: $builds" first "$sheet"
expect "a source that changed while the program was built is seen by the next use" 0 "$small" "$older: $builds" first "$sheet"
prover "exit 1"
expect "a program that cannot be built again" 2 "" "$older: $builds$cannot" first "$sheet"
rm "$folder/tools/rt"
expect "an older program without the toolchain" 2 "" "$older, $lacking" first "$sheet"
rm -r "$copy/target"
prover "exit 1"
expect "a program that cannot be built" 2 "" "$yet: $builds$cannot" first "$sheet"
rm -r "$copy/crates/trace/out"
prover "exit 0"
expect "a prover that leaves no program" 2 "" "$yet: $builds$cannot" first "$sheet"

echo "$passed passed, $failed failed"
[ "$failed" -eq 0 ]
