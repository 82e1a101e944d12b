#!/bin/sh
# Builds the examples and the tests, runs them, and holds what they print to what is stored here.
#   exports/run.sh [c] [rust]      by default both
# LIBRARY is the static library. If it is not set, it is target/staticlib/libravenvanity.a, which is built where it is not there.
# EXPORTS_TARGET is where the programs go, by default target/exports.
# Status 1: something does not build, or prints something else; status 2: a wrong word, or something is missing.
set -eu
here=$(cd "$(dirname "$0")" && pwd)
root=$(dirname "$here")
library=${LIBRARY:-$root/target/staticlib/libravenvanity.a}
target=${EXPORTS_TARGET:-$root/target/exports}

# Ends with a status and a message.
end() {
    echo "run.sh: $2" >&2
    exit "$1"
}

# A program that must be there, and what it is for.
need() {
    command -v "$1" >/dev/null 2>&1 || end 2 "$1 is not on the PATH: $2"
}

build_library() {
    [ -z "${LIBRARY:-}" ] || end 2 "LIBRARY is $LIBRARY, which is not there"
    need rt "the Rattle kit is needed to build $library"
    echo "tools/build.sh ravenvanity: proves and builds $library, which takes minutes the first time"
    status=0
    (cd "$root" && tools/build.sh ravenvanity) >"$target/staticlib.log" 2>&1 || status=$?
    [ "$status" -eq 0 ] && [ -f "$library" ] && return
    tail -n 20 "$target/staticlib.log" >&2
    end 1 "tools/build.sh ravenvanity did not build $library (status $status): $target/staticlib.log has all of what it said"
}

compile_c() {
    cc -std=c11 -Wall -Wextra -Wpedantic -Werror -O2 -I"$here/c" -o "$target/$1_c" "$here/c/$1.c" "$library"
}

compile_rust() {
    name=$(basename "$library" .a)
    rustc --edition 2024 -O -L "native=$(dirname "$library")" -l "static=${name#lib}" -o "$target/$1_rust" "$here/rust/$1.rs"
}

# Each header alone, as C++.
try_headers() {
    if ! command -v c++ >/dev/null 2>&1; then
        echo "c++ is not on the PATH: the headers are not tried as C++"
        return
    fi
    for header in "$here"/c/*.h; do
        echo "#include \"${header##*/}\"" | c++ -std=c++17 -Wall -Wextra -Werror -I"$here/c" -fsyntax-only -x c++ - ||
            end 1 "$header is not C++"
    done
    echo "the headers in c are C++ too"
}

# A program, its language, and the file with what it must print.
hold() {
    "compile_$2" "$1" || end 1 "$1 in $2 does not build"
    "$target/$1_$2" >"$target/$1_$2.stdout" || end 1 "$1 in $2 ends with status $?"
    diff -u "$3" "$target/$1_$2.stdout" || end 1 "$1 in $2 prints something else than $3"
    echo "$1 in $2 prints what it must"
}

[ $# -gt 0 ] || set -- c rust
for language in "$@"; do
    case $language in
    c) need cc "a C compiler is needed for the programs in c" ;;
    rust)
        need rustc "Rust's compiler is needed for the programs in rust"
        need cc "rustc links by it"
        ;;
    *) end 2 "a language is c or rust, not $language" ;;
    esac
done
mkdir -p "$target"
[ -f "$library" ] || build_library
for language in "$@"; do
    hold example "$language" "$here/$language/stdout"
    hold sheet_test "$language" "$here/sheet_test.hex"
    case $language in
    c)
        hold write_test c /dev/null
        try_headers
        ;;
    rust) hold report_test rust /dev/null ;;
    esac
done
