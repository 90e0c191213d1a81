# shellcheck shell=bash disable=SC2034
# How a program for x86-64 is compiled and run here, for the scripts that source this: the archive is for x86-64 alone.
# On such a machine that takes a C compiler; on any other a cross compiler, static programs and an emulator.
#   find_x86_64 NAME   sets the words cc and cxx (which is empty where there is no C++) to compile and link with, and run
#                      to run what comes of it, and the words load to run a program that the kit linked; where something
#                      is missing it says so in a line that starts with NAME, and fails
#   find_load          sets load alone, for which no compiler is needed; fails where there is no emulator
#   build_archive      has the kit prove and build the archive of crates/hoengtila_c, and copies it to target/staticlib/libhoengtila.a, where
#                      that is missing or older than its sources or the kit; what the kit says goes to standard output, and the last
#                      line of its check to target/staticlib/check
#   build_program NAME the same of a program, which is copied to target/bin/NAME
#   build_library NAME has the kit prove and build a library and those below it, each to crates/CRATE/out/rlib
#   find_rattle NAME.. sets the words rattle and over, which call the kit's checker on a crate over these libraries, which build_library
#                      built, and toolchain, by which it also compiles
# What a plain `rt ci` proved is taken: `rt lib` would prove those libraries once more. `.ci/run` has target/proved say when that began.

# a source that is newer than a file, if there is one; crates/NAME/out is the kit's
newer_source() { # FILE
    find crates.txt crates -regex 'crates/[^/]*/out' -prune -o \( ! -type d -o -regex 'crates/[^/]*/.*' \) -newer "$1" -print -quit
}

# One at a time in target/, as in `blocks`.
build_archive() { archive_is_current || (flock 9 && { archive_is_current || make_archive; }) 9<crates.txt; }

build_program() { program_is_current "$1" || (flock 9 && { program_is_current "$1" || make_program "$1"; }) 9<crates.txt; } # NAME

archive_is_current() {
    local archive=target/staticlib/libhoengtila.a kit
    kit=$(command -v rt) && kit=$(readlink -f "$kit") || kit=crates.txt
    [ -e "$archive" ] && [ -s target/staticlib/check ] && [ ! "$kit" -nt "$archive" ] && [ -z "$(newer_source "$archive")" ]
}

# by the mark that says when its proof began
program_is_current() { [ -x "target/bin/$1" ] && [ -e "target/blocks/$1" ] && [ -z "$(newer_source "target/blocks/$1")" ]; } # NAME

# the crates that some rest on, and these
rests_of() { # NAMES..
    awk -v wanted="$*" '
        { sub(/#.*/, "") }
        /:/ { name = $1; sub(/:.*/, "", name); sub(/[^:]*:/, ""); rests[name] = $0 }
        function visit(name, words, n, k) {
            if (!(name in rests) || seen[name]++) return
            n = split(rests[name], words, " ")
            for (k = 1; k <= n; k++) visit(words[k])
            print name
        }
        END { n = split(wanted, first, " "); for (k = 1; k <= n; k++) visit(first[k]) }' crates.txt
}

# whether libraries stand as `rt ci` left them, and nothing has changed since; those of other commands have a stamp
are_of_gate() { # NAMES..
    local name
    [ -e target/proved ] && [ -z "$(newer_source target/proved)" ] || return
    for name; do [ -e "crates/$name/out/rlib/$name.rlib" ] && [ ! -e "crates/$name/out/rlib/stamp" ] || return; done
}

build_library() { # NAME
    # shellcheck disable=SC2046
    are_of_gate $(rests_of "$1") || (cd "crates/$1" && flock ../../crates.txt rt lib 2>&1)
}

find_rattle() { # NAMES..
    local kit name
    kit=$(dirname "$(rt doc)")
    rattle=("$kit/bin/rattle")
    over=(--extern "std=$kit/rlibs/std.rlib" -L "dependency=$kit/rlibs" --antt-project "$kit/rattle/logic/antt-project.json" --logic-built "$kit/logic_built")
    for name; do over+=(--extern "$name=$PWD/crates/$name/out/rlib/$name.rlib"); done
    for name in $(rests_of "$@"); do over+=(-L "dependency=$PWD/crates/$name/out/rlib"); done
    over+=(--jobs "$(nproc)")
    toolchain=(--toolchain "$kit/toolchain")
}

# The crate of the exports alone is proved over what `rt ci` left; else all by `rt lib`.
prove_archive() {
    local below rattle over toolchain
    below=$(rests_of hoengtila_c | grep -vx hoengtila_c)
    # shellcheck disable=SC2086
    if are_of_gate $below; then
        mkdir -p crates/hoengtila_c/out
        find_rattle $(sed -n 's/^hoengtila_c staticlib://p' crates.txt)
        (cd crates/hoengtila_c && "${rattle[@]}" build --crate-name hoengtila_c src/lib.rt "${over[@]}" "${toolchain[@]}" --crate-type staticlib --backend llvm -o out/libhoengtila_c.a)
    else
        (cd crates/hoengtila_c && rt lib)
    fi
}

make_archive() {
    mkdir -p target/staticlib
    : >target/staticlib/began
    prove_archive 2>&1 | tee target/staticlib/said || return
    keep_archive
}

# Puts what was built in its place, as old as the sources that it was built of. For a release the last line of its check is kept.
keep_archive() {
    grep '^logic=proved' target/staticlib/said | tail -n 1 >target/staticlib/check &&
        cp crates/hoengtila_c/out/libhoengtila_c.a target/staticlib/libhoengtila.a.new &&
        touch -r target/staticlib/began target/staticlib/libhoengtila.a.new &&
        mv target/staticlib/libhoengtila.a.new target/staticlib/libhoengtila.a
}

# `rt run` proves and builds it, and runs it on nothing; it may end as it likes.
make_program() { # NAME
    mkdir -p target/blocks
    : >"target/blocks/$1.began"
    (cd "crates/$1" && rt run </dev/null || true) 2>&1 | tee "target/blocks/$1.log"
    grep -q "^rt: running out/$1;" "target/blocks/$1.log" || return
    keep_program "$1" "target/blocks/$1.began"
}

# Puts a program that was built in its place, with the time at which its proof began.
keep_program() { # NAME BEGAN
    mkdir -p target/bin target/blocks
    cp "crates/$1/out/$1" "target/bin/$1.new" && mv "target/bin/$1.new" "target/bin/$1" && touch -r "$2" "target/blocks/$1"
}

find_emulator() { command -v qemu-x86_64; }

# Asked for by CI or by HOENGTILA_INSTALL=1, and possible as root where there is apt-get.
install_cross_compilers() {
    [ -n "${CI:-}${HOENGTILA_INSTALL:-}" ] && [ "$(id -u)" = 0 ] && command -v apt-get >/dev/null || return 0
    { apt-get update -q && apt-get install -y -q gcc-x86-64-linux-gnu g++-x86-64-linux-gnu; } >/dev/null 2>&1 || true
}

find_x86_64() {
    cc=() cxx=() run=() load=()
    if [ "$(uname -m)" = x86_64 ]; then
        find_native "$1"
    else
        find_cross "$1"
    fi
}

find_native() {
    command -v "${CC:-cc}" >/dev/null || { echo "$1: a C compiler is missing here, so nothing was run"; return 1; }
    cc=("${CC:-cc}")
    if command -v "${CXX:-c++}" >/dev/null; then cxx=("${CXX:-c++}"); fi
}

find_cross() {
    local c=x86_64-linux-gnu-gcc emulator
    command -v "$c" >/dev/null || install_cross_compilers
    command -v "$c" >/dev/null || { echo "$1: a C compiler for x86-64 is missing here, so nothing was run"; return 1; }
    emulator=$(find_emulator) || { echo "$1: an emulator of x86-64 is missing here, so nothing was run"; return 1; }
    # a static program needs no library of the machine that it is for
    cc=("$c" -static)
    # gcc compiles C++ too; g++ would add -lm, of which Debian's cross packages have no static form that links
    if command -v x86_64-linux-gnu-g++ >/dev/null; then cxx=("$c" -static); fi
    run=("$emulator")
    find_load
}

# A program that the kit linked is for x86-64.
find_load() {
    local emulator
    load=()
    [ "$(uname -m)" != x86_64 ] || return 0
    emulator=$(find_emulator) || return 1
    load=("$emulator")
}
