#!/usr/bin/env bash
# The driver's header, library, example and test: installed to a temporary prefix, built from there by pkg-config with all warnings as
# errors, plain and under sanitizers, and run. Also holds header, library, test and docs/DRIVER.md against each other.
# Stops at the first failure; its last line adds up what was passed.
set -euo pipefail
cd "$(dirname "$0")/.."

fail() { echo "$*"; exit 1; }

library=target/staticlib/libdriver.a
header=include/tbexlum.h
manual=docs/DRIVER.md
[ -f "$library" ] || fail "$library is missing: 'bin/staticlib driver' builds it"
for tool in gcc g++ pkg-config; do
    command -v "$tool" >/dev/null 2>&1 || fail "$tool is not installed"
done

folder=$(mktemp -d)
trap 'rm -rf "$folder"' EXIT
unset DESTDIR

passed=0
pass() { passed=$((passed + 1)); }

# The names of the calls that the header declares, a line each.
calls() { sed -n 's/^uint32_t \(tbexlum_[a-z_]*\)(.*/\1/p' "$header" | sort; }
# The names and values of the header's constants, a line each.
constants() { sed -n 's/^#define \(TBEXLUM_[A-Z_]*\) \([0-9]*\)u$/\1 \2/p' "$header"; }
constant() { constants | sed -n "s/^$1 //p"; } # NAME

echo "== install"
prefix="$folder/a prefix"
files=(include/tbexlum.h lib/libtbexlum.a lib/pkgconfig/tbexlum.pc)

# Whether a folder holds the installed files, and no other.
holds() { # FOLDER
    diff <(printf '%s\n' "${files[@]}") <(cd "$1" && find . -type f | sed 's|^\./||' | sort)
}

bin/install "$prefix" >"$folder/named"
diff <(printf "$prefix/%s\n" "${files[@]}") "$folder/named" || fail "install does not name the files that it writes"
holds "$prefix" || fail "install does not write its three files"
cmp "$header" "$prefix/include/tbexlum.h"
cmp "$library" "$prefix/lib/libtbexlum.a"

export PKG_CONFIG_PATH="$prefix/lib/pkgconfig"
version=$(constant TBEXLUM_VERSION_MAJOR).$(constant TBEXLUM_VERSION_MINOR)
[ "$(pkg-config --modversion tbexlum)" = "$version" ] || fail "tbexlum.pc does not say version $version, as $header does"
asks=$(grep -o "pkg-config --exists '[^\`]*" "$manual") || fail "$manual does not ask for a version"
eval "$asks" || fail "$manual asks for another version than $version: $asks"
# What pkg-config tells, read as a shell reads it: the prefix holds a space.
eval "installed=($(pkg-config --cflags --libs tbexlum))"
pass

DESTDIR="$folder/a stage" bin/install "$folder/later/" >/dev/null
[ -e "$folder/later" ] && fail "install does not honour DESTDIR"
holds "$folder/a stage$folder/later" || fail "install does not honour DESTDIR"
grep -qxF "prefix=$folder/later" "$folder/a stage$folder/later/lib/pkgconfig/tbexlum.pc" || fail "tbexlum.pc does not say the prefix alone"
pass

# Whether an install ends with status 2 and says this.
stops() { # TEXT COMMAND..
    local status=0
    "${@:2}" >/dev/null 2>"$folder/said" || status=$?
    [ $status -eq 2 ] || fail "status $status, not 2: ${*:2}"
    diff <(echo "install: $1") "$folder/said" || fail "not said: ${*:2}"
}
small() { (ulimit -f 1 && "$@"); } # no file may be longer than 1 KiB, as on a full disk
mkdir -p "$folder/taken/include/tbexlum.h" "$folder/closed"
touch "$folder/file" "$folder/closed/lib"
stops "$folder/file/below/include/tbexlum.h: cannot be written" bin/install "$folder/file/below"
stops "$folder/taken/include/tbexlum.h: cannot be written" bin/install "$folder/taken"
stops "$folder/closed/lib/libtbexlum.a: cannot be written" bin/install "$folder/closed"
stops "$folder/full/include/tbexlum.h: cannot be written" small bin/install "$folder/full"
[ -z "$(find "$folder/full" -type f)" ] || fail "an install that could not write a file leaves a part of it"
pass

# A copy of the tree, in which rt is a stand-in: the library is built where it is missing or older than its code, and then no more.
tree="$folder/tree"
mkdir -p "$tree/crates" "$tree/target" "$folder/tools" "$folder/none"
cp -R bin include examples docs crates.txt "$tree"
for crate in driver_c driver $(sed -n 's/^driver://p' crates.txt); do
    mkdir "$tree/crates/$crate"
    cp -R "crates/$crate/src" "$tree/crates/$crate"
done
for tool in sh cat cp dirname find mkdir mv rm sed; do ln -s "$(command -v $tool)" "$folder/none/$tool"; done
cat >"$folder/tools/rt" <<'END'
#!/bin/sh
[ "$*" = lib ] && [ "${PWD##*/}" = driver_c ] && [ -f ../../crates.txt ] || exit 1
mkdir -p out && echo "$BUILT" >out/libdriver_c.a
END
chmod +x "$folder/tools/rt"
# Installs from the copy, with a stand-in that would build the library anew, and compares what is installed.
installs() { # WANTED BUILT
    BUILT=$2 PATH="$folder/tools:$PATH" "$tree/bin/install" "$folder/built" >/dev/null 2>&1 || fail "no library was built"
    [ "$(cat "$folder/built/lib/libtbexlum.a")" = "$1" ] || fail "the library that is installed is not the $1 one"
}
stops "the static library has to be built, and the Rattle toolchain (rt) is not installed" \
    env PATH="$folder/none" "$tree/bin/install" "$folder/x"
mkdir "$tree/target/install.log"
stops "$tree/target/install.log: cannot be written" env PATH="$folder/tools:$PATH" "$tree/bin/install" "$folder/x"
rmdir "$tree/target/install.log"
mkdir "$folder/broken"
printf '#!/bin/sh\nexit 1\n' >"$folder/broken/rt"
chmod +x "$folder/broken/rt"
stops "building the static library: every function is proved first, which takes three to five minutes on two processors
install: the static library could not be built: $tree/target/install.log tells why" \
    env PATH="$folder/broken:$PATH" "$tree/bin/install" "$folder/x"
installs first first
installs first second
touch -d "1 hour" "$tree/crates/hall/src/lib.rt"
installs second second
touch "$tree/crates/hall/src/lib.rt"
pass

echo "== the commands of $manual"
cp "$library" "$tree/target/staticlib/libdriver.a"
sources() { (cd "$tree" && find . -path ./target -prune -o -type f -print | sort); }
sources >"$folder/before"
awk '/^    / { print substr($0, 5); seen = 1; next } seen { exit }' "$manual" >"$folder/typed"
(cd "$tree" && bash -e "$folder/typed" >"$folder/shown") || fail "the commands of $manual do not work"
diff <(printf "$tree/target/installed/%s\n" "${files[@]}" && cat examples/driver.expected) "$folder/shown" ||
    fail "the commands of $manual do not show examples/driver.expected"
diff "$folder/before" <(sources) || fail "the commands of $manual leave a file among the sources"
pass

echo "== calls: $header, $manual"
numbers=(no one two three four five six seven eight nine ten)
number=${numbers[$(calls | wc -l)]}
for said in "The contracts of the $number calls" "It defines the $number calls"; do
    grep -qF "$said" "$manual" || fail "$manual does not say '$said', as many as $header has"
done
while read -r call; do
    grep -q "^| \`$call\` | [a-z]" "$manual" || fail "$manual has no row for $call in its table of calls"
    grep -q "^| \`$call\` | [0-9,]* | [0-9,]* |\$" "$manual" || fail "$manual does not say the stack of $call"
    grep -qx "## $call" "$manual" || fail "$manual has no section for $call"
done < <(calls)
pass

echo "== constants: $header, $manual"
[ "$(constants | wc -l)" -eq "$(grep -c '^#define TBEXLUM_[A-Z_]* ' "$header")" ] || fail "$header has a constant that is no plain number"
while read -r name value; do
    grep -q "^| $value |.*\`$name\`" "$manual" || fail "$manual has no row with $value for $name"
done < <(constants)
while read -r name; do
    constants | grep -q "^$name " || fail "$manual names $name, which $header has not"
done < <(grep -o 'TBEXLUM_[A-Z_]*[A-Z]' "$manual" | grep -vx TBEXLUM_REFUSED_BAD_HEADER | sort -u) # the name that 8 had in version 1
diff <(grep -o 'tbexlum_[a-z_]*(' "$header" | sort -u) <(grep -o 'tbexlum_[a-z_]*(' "$manual" | sort -u) ||
    fail "$header and $manual have not the same functions"
while read -r name text; do
    sed 's/×/*/g' "$manual" | grep -F "| \`$name\` | $text |" >/dev/null || fail "$manual has no row with '$text' for $name"
done < <(sed -n 's/^ *case \(TBEXLUM_[A-Z_]*\):$/\1/; T; N; s/\n *return "\(.*\)";$/ \1/p' "$header")
grep -qF "This page is about version $version." "$manual" || fail "$manual is not about version $version"
grep -qF "#if TBEXLUM_VERSION_MAJOR != ${version%.*}\`" "$manual" || fail "$manual has not the line that asks for version ${version%.*}"
worked() { sed -n "s/^static const char worked_$1\[\] = \"\(.*\)\";\$/$2/p" tests/driver_test.c; } # NAME SHOWN
while read -r bytes; do
    grep -qF "$bytes" "$manual" || fail "$manual has not the worked bytes $bytes"
done < <(worked '[a-z0-9_]*' '\1')
while read -r number place bytes; do
    grep -q "^| $number | $place | .* | \`$bytes\` |\$" "$manual" || fail "$manual has no row with $number, place $place and $bytes"
done < <(worked '\([0-9]*\)_at_\([0-9]*\)' '\1 \2 \3')

# A constant made wrong on purpose, one at a time: the test passes with the right header and with none of these.
mkdir "$folder/tried"
passes() { # NAME VALUE WRONG
    rm -f "$folder/tried/test"
    sed "s/^#define $1 $2u\$/#define $1 $3u/" "$header" >"$folder/tried/tbexlum.h" &&
        gcc -std=c11 -DRANDOM_QUESTIONS=400u "-DINSTALLED_VERSION=\"$version\"" -I"$folder/tried" tests/driver_test.c "$library" \
            -o "$folder/tried/test" &&
        { "$folder/tried/test" >/dev/null; } 2>/dev/null
}
passes TBEXLUM_ANSWERED 0 0 || fail "the test does not pass with the right header"
while read -r name value; do
    wrong=$((value + 1))
    # The numbers that have a text are cases of one switch, so a wrong one must be none of the others.
    if grep -q "case $name:" "$header"; then wrong=$((value + 64)); fi
    if passes "$name" "$value" "$wrong"; then fail "the test does not see a wrong $name"; fi
    [ -x "$folder/tried/test" ] || fail "the test is not built with a wrong $name, so it has seen nothing"
done < <(constants)
echo "$(constants | wc -l) constants, each in the manual, each seen by the test when it is wrong"
pass

echo "== the object code, as $manual says"
readelf -h "$library" | grep -q 'Machine: *Advanced Micro Devices X86-64' || fail "it is not for x86-64"
if readelf -rW "$library" | grep -o 'R_X86_64_[A-Z0-9_]*' | grep -vxE 'R_X86_64_(PC32|PLT32)'; then fail "it depends on its position"; fi
if nm -u "$library" | grep ' U '; then fail "it needs a symbol"; fi
diff <(calls) <(nm -g --defined-only "$library" | awk 'NF == 3 { print $3 }' | sort) || fail "it does not define the calls alone"
if readelf -SW "$library" | sed 's/^ *\[ *[0-9]*\] *//' | awk '$7 ~ /W/ && $5 !~ /^0+$/' | grep .; then fail "it has writable data"; fi
objdump -d "$library" | cut -f 3 >"$folder/instructions"
grep -q '%xmm' "$folder/instructions" || fail "no instruction is seen"
if grep -E '^[fv][a-z]|%(y|z)?mm[0-9]|%st' "$folder/instructions"; then fail "it uses other registers"; fi
if grep -E '^(add|sub|mul|div|sqrt|min|max|cmp|u?comi|cvt)[a-z0-9]*[sp][sd] .*xmm' "$folder/instructions"; then
    fail "it computes in floating point"
fi
pass

warnings=(-Wall -Wextra -Wpedantic -Wconversion -Wsign-conversion -Wshadow -Wundef -Wunused -Wcast-qual -Wswitch-default -Werror)
sanitizers=("-fsanitize=address,undefined" -fno-sanitize-recover=all)
if [ "$(uname -m)" != x86_64 ]; then
    echo "== the address sanitizer is not tried: it does not run under the emulator of x86-64"
    sanitizers=(-fsanitize=undefined -fno-sanitize-recover=all)
fi

# Builds a source with what is installed, and nothing else of this tree.
build() { # COMPILER SOURCE PROGRAM FLAG..
    local language=(-std=c11 -x c)
    case $1 in *++) language=(-std=c++17 -x c++) ;; esac
    "$1" "${language[@]}" -g -O2 "${warnings[@]}" "-DINSTALLED_VERSION=\"$version\"" "${@:4}" "$2" -x none "${installed[@]}" -o "$3"
}

# Builds and runs the example and the test.
try() { # COMPILER KIND FLAG..
    echo "== $1, $2: the example"
    build "$1" examples/driver.c "$folder/driver" "${@:3}"
    "$folder/driver" >"$folder/driver.out"
    diff examples/driver.expected "$folder/driver.out" || fail "the example's output is not examples/driver.expected"
    pass

    echo "== $1, $2: the test"
    build "$1" tests/driver_test.c "$folder/driver_test" "${@:3}"
    "$folder/driver_test" | tee "$folder/driver_test.out"
    tail -n 1 "$folder/driver_test.out" | grep -qE '^[1-9][0-9]* passed, 0 failed$' || fail "the test did not pass"
    pass
}

printf '#include <tbexlum.h>\nint main(void)\n{\n    return 0;\n}\n' >"$folder/alone.c"
for compiler in gcc g++ clang clang++; do
    if ! command -v "$compiler" >/dev/null 2>&1; then
        echo "== $compiler is not installed, and not tried"
        continue
    fi
    echo "== $compiler: the header alone"
    case $compiler in
        *++) build "$compiler" "$folder/alone.c" "$folder/alone" -Wold-style-cast -Wmissing-declarations ;;
        *) build "$compiler" "$folder/alone.c" "$folder/alone" -Wmissing-prototypes -Wmissing-declarations ;;
    esac
    pass
    try "$compiler" plain
    case $compiler in g*) try "$compiler" sanitized "${sanitizers[@]}" ;; esac
done

echo "$passed passed, 0 failed"
