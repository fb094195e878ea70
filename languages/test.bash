# What the tests of the languages share: languages/NAME/test.sh FOLDER reads this file first. FOLDER is what .ci/library has written.
# shellcheck shell=bash disable=SC2034
set -euo pipefail
top="$(cd "$(dirname "${BASH_SOURCE[0]}")/.." && pwd)"
languages="$top/languages"
here="$(cd "$(dirname "$0")" && pwd)"
library="$(cd "${1:?$(basename "$0") FOLDER, which .ci/library has written}" && pwd)"
made="$(mktemp -d)"
trap 'rm -rf "$made"' EXIT
say() { echo "$(basename "$here"): $*"; }
fail() { say "$*"; exit 1; }
[ -f "$library/libsamvolip.a" ] || fail "there is no $library/libsamvolip.a: first run .ci/library $1"

# quietly COMMAND..: shows what it prints only where it fails
quietly() { "$@" > "$made/line" 2>&1 || { cat "$made/line"; return 1; }; }

cc="${CC:-cc}"
cxx="${CXX:-c++}"
flags=(-O2 -g -Wall -Wextra -Werror -I"$library/include")
strict=(-Wpedantic -Wconversion -Wsign-conversion)
links=("$library/libsamvolip.a" -lpthread)

# The library by its parts: the proved one with the kit's memory, which is malloc's; its own memory, which takes the place of that; and
# the map without an end.
kit_links=("$top/crates/nb_ffi/out/libnb_ffi.a" "${KIT:-$(dirname "$(rt doc)")}/c/liblibc_c.a" -lpthread)
memory_links=("@$languages/c/src/links" -lpthread)
parts_links=("${memory_links[@]}" "${kit_links[@]}")
sources=("$languages"/c/src/*.c)
divided=(-DDIVIDED_FROM=9 -DPART_BITS=2) # into parts while it is small still

# build NAME SOURCE [FLAG..] and build_cpp NAME SOURCE [FLAG..]: a program of C, or of C++
build() { "$cc" -std=gnu11 "${flags[@]}" "${@:3}" "$2" -o "$made/$1" "${links[@]}"; }
build_cpp() { "$cxx" -std=c++17 "${flags[@]}" "${@:3}" "$2" -o "$made/$1" "${links[@]}"; }

# sanitize SANITIZER: sets the flags for it, and the objects of the sources, which are compiled with it once, divided.
sanitize() {
    local to="$library/sanitized/$1" source
    sanitizing=(-O0 -fno-builtin "-fsanitize=$1" -fno-sanitize-recover=all)
    if [ ! -d "$to" ]; then
        mkdir -p "$made/sanitized/$1" "$library/sanitized"
        for source in "${sources[@]}"; do
            "$cc" -std=gnu11 "${flags[@]}" -w "${divided[@]}" "${sanitizing[@]:1}" -c "$source" \
                -o "$made/sanitized/$1/$(basename "$source" .c).o"
        done
        mv "$made/sanitized/$1" "$to"
    fi
    sanitized=("$to"/*.o)
}

# refuse PROGRAM: refuses each of its requests for memory in turn
refuse() {
    local number=0 asked=1 requests left
    [ -f "$made/refuse.so" ] || "$cc" -O2 -shared -fPIC "$top/.ci/refuse.c" -o "$made/refuse.so" -ldl -lpthread
    while [ "$number" -le "$asked" ]; do
        exec 7> "$made/counts"
        LD_PRELOAD="$made/refuse.so" REFUSE=$number REFUSED=7 "$made/$1" || fail "$1, request $number refused: it ended otherwise"
        exec 7>&-
        read -r requests left _ < "$made/counts"
        [ "$left" = 0 ] || fail "$1, request $number refused: $left blocks left"
        [ "$number" != 0 ] || asked=$requests
        number=$((number + 1))
    done
    say "${1%%.*}: $asked requests for memory refused in turn"
}

# numbers KIND: the numbers that examples read, a trace or requests
numbers() { awk -f "$languages/c/examples/numbers.awk" -v kind="$1"; }

# shown PAGE: the whole program of a page, which is its indented lines from the first #include on
shown() { sed -n '/^    #include/,/^[^ ]/s/^    //p' "$top/docs/$1.md"; }
