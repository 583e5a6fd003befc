#!/usr/bin/env bash
# The wrong answers of crates/*/must-fail, function by function. An edit may hold one wrong answer in each of several functions, a line
# `refused: FUNCTION` before each. `rt ci` tells that the prover refuses an edit; this tells where and why. Each edit is made in a copy of its crate,
# which is checked from what the checkout's own check kept. The check has to find fault with the proofs of exactly those functions, for a fact that no
# longer holds; that a caller then rests on a refused function is no fault of its own, and neither is a goal at which the search gave up. An edit of a
# constant, a definition or a theorem names no function but the place of its refusal, `refused at: FILE LAW`, or the file alone where it is the proof of a
# function: the check's first error has to be there. The last line adds up the wrong answers.
#
#   tests/refused.sh            tries every edit
#   tests/refused.sh CRATE..    tries the edits of these crates
#
# What a check said stays in target/must-fail/CRATE/LABEL.log. RT_JOBS is the number of checks at a time, or else that of the processors.
set -euo pipefail
cd "$(dirname "$0")/.."
jobs=${RT_JOBS:-$(nproc)}
logs=target/must-fail
shapes=$(grep -v '^#' tests/shapes.txt)

# Writes each `new:` text of an edit in the place of the `old:` text before it, which stands once in its file.
apply() { # EDIT CRATE'S-FOLDER
    local line path old new text
    while IFS= read -r line || [ -n "$line" ]; do
        case $line in
        'file: '*) path=$2/${line#file: } ;;
        'old: '*) old=${line#old: } ;;
        'new:'*)
            new=${line#new:}
            text=$(cat "$path" && printf .)
            [[ $text == *"$old"* && ${text#*"$old"} != *"$old"* ]] || { echo "$1: '$old' does not stand once in $path" && return 1; }
            printf %s "${text%%"$old"*}${new# }" >"$path"
            text=${text#*"$old"}
            printf %s "${text%.}" >>"$path"
            ;;
        esac
    done <"$1"
}

# Where what the check of an edit said is kept.
log_of() { # EDIT
    local crate=${1#crates/}
    echo "$logs/${crate%%/*}/$(basename "$1" .edit).log"
}

# Makes a part of a crate in a copy of the repository what it is here.
restore() { # COPY CRATE PART..
    local crate=$2 there=$1/crates/$2 part
    shift 2
    mkdir -p "$there/out"
    for part in "$@"; do
        rm -rf "${there:?}/$part"
        if [ -d "crates/$crate/$part" ]; then cp -R "crates/$crate/$part" "$there/$part"; fi
    done
}

# Checks a crate with an edit, in a copy of the repository that has nothing else to do meanwhile.
try() { # COPY EDIT
    local crate=${2#crates/} log
    crate=${crate%%/*}
    log=$(log_of "$2")
    mkdir -p "$(dirname "$log")"
    restore "$1" "$crate" out/incremental
    if apply "$2" "$1/crates/$crate" >"$log"; then (cd "$1/crates/$crate" && rt check --jobs 1) >>"$log" 2>&1 </dev/null || true; fi
    restore "$1" "$crate" src specs proofs
}

# The folder of a function's proof, or of all the functions that it calls in a circle.
proofs_of() { # CRATE, functions on standard input
    local name path function cycle circle
    while IFS= read -r name; do
        path=${name#"$1"::}
        path=${path//:://}
        function=${path##*/}
        # The name that functions that call each other give their circle; one that calls itself alone gives it its own.
        cycle=$(grep -rh -A 1 '^#\[cycle(' "crates/$1/src" | sed -n -E '/^#\[cycle\((.*)\)\]$/{s//\1/;h;d;}; /^(pub(\([a-z]+\))? )?fn '"$function"'\(/{g;p;}')
        circle=$(find "crates/$1/proofs" -type d -name "+${cycle:-$function}" 2>/dev/null | sed "s|^crates/$1/proofs/||")
        echo "${circle:-$path}"
    done | sort -u
}

# The log's errors but for those that follow from another, a line each: the file and the law, which is left empty where the file does not parse.
errors_of() { # LOG
    sed -n -E '/(was|were) not (admitted|checked)/d; s/^(\.\/)?((src|specs|proofs)\/[^:]*):[0-9]+:[0-9]+: error: (`([^`]*)`: )?.*/\2 \5/p' "$1"
}

# The functions that have a goal with no answer which the search shows false or finds no proof of, and did not give up.
left_open() { # LOG
    awk '/it is not proved that/ && !/gave up/ { open = 1 } /^fn / { if (open) print substr($2, 1, length($2) - 1); open = 0 }' "$1"
}

# The folders of the proofs that the log finds fault with, and any other file that it does.
refused_in() { # CRATE LOG
    {
        errors_of "$2" | cut -d ' ' -f 1 | sed -E 's#^proofs/(.*)/(Answers|Invariants|Proof)\.antt$#\1#'
        left_open "$2" | proofs_of "$1"
    } | sort -u
}

failed=0
passed=0
fail() {
    echo "FAILED: $*"
    failed=$((failed + 1))
}

crates=("$@")
[ $# -gt 0 ] || mapfile -t crates < <(sed -n 's/^\([a-z0-9_]*\)[^:#]*:.*/\1/p' crates.txt)
edits=()
for crate in "${crates[@]}"; do
    if [ -d "crates/$crate/must-fail" ]; then
        edits+=("crates/$crate"/must-fail/*.edit)
    elif [ $# -gt 0 ]; then
        echo "crates/$crate/must-fail: there is no such folder" && exit 2
    fi
done

# What the checks of the edits begin with.
for crate in "${crates[@]}"; do
    [ -d "crates/$crate/must-fail" ] || continue
    (cd "crates/$crate" && rt check) >"${TMPDIR:-/tmp}/refused-$$.log" 2>&1 || { cat "${TMPDIR:-/tmp}/refused-$$.log" && echo "$crate is not proved as it stands" && exit 1; }
done
rm -f "${TMPDIR:-/tmp}/refused-$$.log"

room=$(mktemp -d)
trap 'rm -rf "$room"' EXIT
for edit in "${edits[@]}"; do rm -f "$(log_of "$edit")"; done
lane() { # NUMBER
    mkdir "$room/$1"
    cp crates.txt "$room/$1"
    tar -c --exclude=out --exclude=must-fail crates | tar -x -C "$room/$1"
    local at
    for ((at = $1; at < ${#edits[@]}; at += jobs)); do try "$room/$1" "${edits[at]}"; done
}
for ((number = 0; number < jobs; number++)); do lane "$number" & done
wait

for edit in "${edits[@]}"; do
    crate=${edit#crates/}
    crate=${crate%%/*}
    log=$(log_of "$edit")
    [ -f "$log" ] || { fail "$edit was not tried: $log is missing"; continue; }
    grep -q '^logic=not-proved' "$log" || { fail "$edit is not refused by the prover: $log ends in '$(tail -n 1 "$log")'"; continue; }
    shape=$(grep -F -o -m 1 "$shapes" "$log" || true)
    [ -z "$shape" ] || { fail "$edit is refused for the shape of a proof or a name, not for a fact: $log says '$shape'"; continue; }
    errors=$(errors_of "$log")
    ! grep -q ' $' <<<"$errors" || { fail "$edit makes a file that does not parse"; continue; }
    named=$(sed -n 's/^refused: //p' "$edit")
    if [ -z "$named" ]; then
        place=$(sed -n 's/^refused at: //p' "$edit")
        first=${errors%%$'\n'*}
        [ -n "$place" ] || { fail "$edit names neither a function nor the place of its refusal"; continue; }
        [ "$place" = "$first" ] || [ "$place" = "${first% *}" ] || { fail "$edit is to be refused at $place, and is first refused at ${first:-no place}"; continue; }
        passed=$((passed + 1))
        continue
    fi
    proofs=$(proofs_of "$crate" <<<"$named")
    refused=$(refused_in "$crate" "$log")
    [ "$proofs" = "$refused" ] || { fail "$edit names" $proofs "and the prover refuses" ${refused:-none}; continue; }
    passed=$((passed + $(wc -l <<<"$named")))
done
echo "$passed passed, $failed failed"
[ "$failed" -eq 0 ]
