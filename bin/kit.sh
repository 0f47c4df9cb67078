# shellcheck shell=bash
# bin/kit.sh   sourced by bin/, tests/ and bench/: the Rattle toolchain (the kit), what its `rt` builds of this repository, and C built with its own compiler
#
#   kit_find             sets KIT (RATTLE_HOME, or the folder above rt's), TOOLS and RUN; false, with a reason on standard error, where there is none
#   "${RUN[@]}" PROGRAM  runs a program under the kit's own loader and C library
#   kit_cc OUT WORD..    compiles the .c files among the words for x86-64 (other words go to the compiler), links them with the .a files, and writes OUT
#   kit_archives NAME..  crates/NAME/out/libNAME.a of static libraries, by `rt lib --cpu x86-64`; one that is there is taken where neither the kit nor a file that it comes from has changed
#   kit_main NAME        sets PROGRAM: crates/NAME/out/NAME, a crate with a `main`, by `rt run`; false, with a reason in NAME's name, where that cannot be done
#   kit_driver OUT       builds tests/driver over rtr_c and test_calls
#   kit_program NAME     sets PROGRAM: out/bin/NAME, which is bin/NAME.c over rtr_c, built where it or rtr_c is new; false, with a reason in NAME's name, where that cannot be done
#
# Nothing is installed, and no header or library of the machine's is used: tests/libc declares what the tests need of C's library. The toolchain runs on x86-64.
kit_find() {
    local rt
    rt=$(command -v rt) || { echo "no 'rt' on the PATH: install the Rattle toolchain (rattle-kit-13f or newer) and put its bin folder on the PATH" >&2; return 1; }
    KIT=${RATTLE_HOME:-$(cd "$(dirname "$(readlink -f "$rt")")/.." && pwd -P)}
    TOOLS=$KIT/toolchain
    [ -r "$TOOLS/lib/ld-linux-x86-64.so.2" ] && [ -x "$TOOLS/bin/clang" ] && [ -x "$KIT/bin/rattle-link" ] || { echo "no toolchain under $KIT: set RATTLE_HOME to the folder of the Rattle toolchain (rattle-kit-13f or newer)" >&2; return 1; }
    RUN=("$TOOLS/lib/ld-linux-x86-64.so.2" --library-path "$TOOLS/lib")
}

kit_top() { cd "$(dirname "${BASH_SOURCE[0]}")/.." && pwd -P; }

kit_cc() {
    local out=$1 word object n=0 flags=() sources=() objects=() archives=() top
    top=$(kit_top)
    shift
    for word; do
        case $word in
            *.c) sources+=("$word") ;;
            *.a) archives+=("$word") ;;
            *) flags+=("$word") ;;
        esac
    done
    for word in "${sources[@]}"; do
        object=$out.$((n += 1)).o
        "$TOOLS/bin/clang" --target=x86_64-unknown-linux-gnu -std=c11 -O2 -ffreestanding -fPIE -nostdinc -Wall -Wextra -Wpedantic -Werror \
            -isystem "$top/tests/libc" -I "$top/include" "${flags[@]}" -c -o "$object" "$word" || return 1
        objects+=("$object")
    done
    "$KIT/bin/rattle-link" --target x86_64-unknown-linux-gnu --toolchain "$TOOLS" -o "$out" "${objects[@]}" "${archives[@]}" 2>"$out.link" || { cat "$out.link" >&2; return 1; }
    rm -f "${objects[@]}" "$out.link"
}

# A crate of crates.txt and all that it stands on in this repository, one to a line. (Before the colon a crate's name may have words behind it, as `staticlib`.)
kit_below() { # NAME
    awk -F: -v todo="$1" '/^[a-z]/ { split($1, word, " "); below[word[1]] = $2 }
        END { while (todo ~ /[^ ]/) { n = split(todo, name, " "); todo = ""; for (i = 1; i <= n; i++) if (name[i] in below && !(name[i] in seen)) { seen[name[i]] = 1; todo = todo " " below[name[i]] } }
              for (k in seen) print k }' crates.txt | LC_ALL=C sort
}
# What decides an archive or a program: the kit, and the files of the crate and of what it stands on.
kit_stamp() { # NAME
    { cat "$KIT/KIT-ID"; kit_below "$1" | sed 's|^|crates/|' | xargs -I{} find {} -type f \( -path '*/src/*' -o -path '*/specs/*' -o -path '*/proofs/*' \) -print0 | LC_ALL=C sort -z | xargs -0 sha256sum; } | sha256sum
}
# Is FILE, in crates/NAME/out, what was built of the files as they stand? out/stamps keeps what it was built of, and its own sum: `rt ci` makes some of them anew, and removes others.
kit_is_new() { # NAME FILE
    [ ! -f "crates/$1/out/$2" ] || [ "$(cat "out/stamps/$2" 2>/dev/null)" != "$(kit_stamp "$1"; sha256sum <"crates/$1/out/$2")" ]
}
kit_note() { # NAME FILE
    mkdir -p out/stamps && { kit_stamp "$1"; sha256sum <"crates/$1/out/$2"; } >"out/stamps/$2"
}

# `rt` says on its line `logic=` whether a crate is proved, and builds nothing that is not. Two static libraries are proved side by side; where both stand on a crate that is still to be built, one waits.
# For the first x86-64 and not for rt's own choice, x86-64-v2: a static library does not look what processor it is on.
kit_archives() (
    cd "$(kit_top)" || exit 1
    wanted=()
    for name; do ! kit_is_new "$name" "lib$name.a" || wanted+=("$name"); done
    [ ${#wanted[@]} -gt 0 ] || exit 0
    logs=$(mktemp -d) || exit 1
    trap 'rm -rf "$logs"' EXIT
    for name in "${wanted[@]}"; do
        rm -f "crates/$name/out/lib$name.a" "out/stamps/lib$name.a"
        { (cd "crates/$name" && rt lib --cpu x86-64) >"$logs/$name" 2>&1 </dev/null && grep -q '^logic=proved' "$logs/$name" && kit_note "$name" "lib$name.a" && touch "$logs/$name.done"; } &
    done
    wait
    for name in "${wanted[@]}"; do
        [ -f "$logs/$name.done" ] || { cat "$logs/$name" >&2; echo "not proved: $name" >&2; exit 1; }
    done
)

# `rt run` proves, builds and runs a program, and leaves it; here it gets no input, and what it prints and how it ends do not matter.
kit_main() { # NAME
    local name=$1 top log said
    top=$(kit_top)
    said=$(kit_find 2>&1) || { echo "$name: $said" >&2; return 1; }
    kit_find
    PROGRAM=$top/crates/$name/out/$name log=$top/out/$name.log
    # who may not write here runs what was built
    [ ! -x "$PROGRAM" ] || [ -w "$top" ] || return 0
    (cd "$top" && kit_is_new "$name" "$name") || return 0
    mkdir -p "$top/out" || { echo "$name: cannot write to $top, where the program is to be built" >&2; return 1; }
    echo "$name: proving and building what is new; on first use this takes some minutes" >&2
    (cd "$top/crates/$name" && rm -f "out/$name" && rt run) >/dev/null 2>"$log" </dev/null || :
    grep -q '^rt: running ' "$log" && [ -x "$PROGRAM" ] && (cd "$top" && kit_note "$name" "$name") ||
        { tail -n 5 "$log" >&2; echo "$name: not proved or not built; all of it is in out/$name.log" >&2; return 1; }
}

kit_driver() {
    local top
    top=$(kit_top)
    kit_archives rtr_c test_calls && kit_cc "$1" -I "$top/tests/driver" "$top"/tests/driver/*.c "$top/crates/rtr_c/out/librtr_c.a" "$top/crates/test_calls/out/libtest_calls.a"
}

# Only what has changed since the last time is proved and built; who may not write here runs what was built.
kit_program() { # NAME
    local name=$1 top library log said file
    top=$(kit_top)
    said=$(kit_find 2>&1) || { echo "$name: $said" >&2; return 1; }
    kit_find
    PROGRAM=$top/out/bin/$name library=$top/crates/rtr_c/out/librtr_c.a log=$top/out/$name.log
    [ ! -x "$PROGRAM" ] || [ -w "$top/out" ] || return 0
    mkdir -p "$top/out/bin" || { echo "$name: cannot write to $top, where the program is to be built" >&2; return 1; }
    ! (cd "$top" && kit_is_new rtr_c librtr_c.a) || echo "$name: proving and building what is new; on first use this takes some minutes" >&2
    kit_archives rtr_c >"$log" 2>&1 </dev/null || { tail -n 5 "$log" >&2; echo "$name: rtr_c is not proved or not built; all of it is in out/$name.log" >&2; return 1; }
    for file in "$library" "$top/bin/$name.c" "$top/bin/route-text.h" "$top/include/hingemoss.h"; do
        [ ! -x "$PROGRAM" ] || [ "$file" -nt "$PROGRAM" ] || continue
        { kit_cc "$PROGRAM.new" "$top/bin/$name.c" "$library" >"$log" 2>&1 </dev/null && mv "$PROGRAM.new" "$PROGRAM"; } || { tail -n 5 "$log" >&2; echo "$name: cannot build the program" >&2; return 1; }
    done
}
