#!/usr/bin/env bash
# Tests the library for C: test.sh FOLDER, which .ci/library has written. Its headers compile as C and as C++, its tests run as many
# ways as the table below says, its examples, benchmarks and the page's program run.
# shellcheck source=languages/test.bash
source "$(dirname "${BASH_SOURCE[0]}")/../test.bash"
shopt -s extglob

# A test of tests/ a line, and its kinds of build, with the words that it takes in each:
#   archive    with libsamvolip.a                    shared      with libsamvolip.so
#   checked    the same, with -DSAMVOLIP_CHECKED     musl        with libsamvolip.a, by musl, without a shared library
#   kit        the proved part with the kit's memory alone
#   memory     the library's memory alone
# with the library's sources, but those that the test includes itself:
#   sources    as they are                           divided     into parts while it is small still, with -DSAMVOLIP_CHECKED
#   fenced     without membarrier                    small       with small tables at most
#   delayed    threads wait at random before each step at a shared word of the moving map
#   sanitized  divided, by each sanitizer; address and thread name one of them
# and each request for memory refused in turn: refused with libsamvolip.a, which takes pages alone; refused_each with the sources, and
# malloc's small blocks; refused_parts with these, divided.
tests() {
    cat << 'TABLE'
calls           archive kit shared sanitized
rows            archive checked musl sanitized
composed        archive checked=20000 sanitized=5000
threads         archive checked=20000 sanitized=5000
many_seats      archive checked=500,100000 sanitized=200,50000
large           archive sanitized=6
checked         archive
passed_maps     archive=100000 sanitized=2000
blocks          memory sanitized=50
bindings        archive musl sanitized
objects         archive fenced=20000 sanitized=5000
endless         archive musl=all,0.05 fenced=all,0.1 small=the_largest_table_fills divided=all,0.1 sanitized=all,0.1
edges           archive fenced=all,0.2 divided=all,0.5 sanitized=all,0.5
filtered        archive
inside_map      sources
inside_memory   sources
inside_objects  sources
moving          sources sanitized
moving_threads  sources=3 fenced=2 delayed=3 sanitized=2
moving_stops    delayed=3
memory          refused refused_each
endless_memory  refused_parts
moving_memory   refused_parts
refused_handlers archive
TABLE
}

# try TEST KIND [WORD..]: builds a test so, and runs it with these words
try() {
    local test="$1" kind="$2" cc="$cc" links=("${links[@]}") more=() parts=() part run=(quietly "$made/$1.$2" "${@:3}")
    case $kind in
        archive) run=("${run[@]:1}") ;;
        checked) more=(-DSAMVOLIP_CHECKED) ;;
        shared) links=(-L"$library" -lsamvolip "-Wl,-rpath,$library") ;;
        musl) cc=musl-gcc more=(-static) ;;
        kit) links=("${kit_links[@]}") ;;
        memory) parts=("$here/src/memory.c") links=("${memory_links[@]}") more=(-fno-builtin) ;;
        sources) parts=("${sources[@]}") ;;
        fenced) parts=("${sources[@]}") more=(-DNO_MEMBARRIER) ;;
        small) parts=("${sources[@]}") more=(-DMOST_EXPONENT=11) ;;
        delayed) parts=("${sources[@]}") more=(-DDELAYS -I"$here/tests/delayed") ;;
        divided) parts=("${sources[@]}") more=("${divided[@]}" -DSAMVOLIP_CHECKED) ;;
        address | thread)
            sanitize "${kind/address/address,undefined}"
            parts=("${sanitized[@]}") more=("${divided[@]}" "${sanitizing[@]}")
            ;;
        refused) run=(refuse "$test.$kind") ;;
        refused_each) parts=("${sources[@]}") more=(-DOURS_FROM=262144) run=(refuse "$test.$kind") ;;
        refused_parts) parts=("${sources[@]}") more=(-DOURS_FROM=262144 -DDIVIDED_FROM=8 -DPART_BITS=1) run=(refuse "$test.$kind") ;;
        *) fail "$test: there is no kind of build $kind" ;;
    esac
    [ ${#parts[@]} = 0 ] || [ "$kind" = memory ] || links=("${parts_links[@]}")
    for part in "${parts[@]}"; do
        grep -q "\"../src/$(basename "${part%.*}").c\"" "$here/tests/$test.c" || more+=("$part")
    done
    build "$test.$kind" "$here/tests/$test.c" "${more[@]}"
    "${run[@]}" || fail "the test $test fails: $kind"
}

# just the names of the headers
nm -D --defined-only "$library/libsamvolip.so" | awk '{ print $3 }' | sort > "$made/shown"
grep -ohE '^(int|void|uint32_t|uint64_t|int64_t|const char) \*?samvolip_[a-z_]+\(' "$here"/include/samvolip{,_map,_objects}.h |
    grep -oE 'samvolip_[a-z_]+' | sort | diff - "$made/shown" || fail "the headers and the library name different functions"

# the headers by each standard, and the sources by each compiler, without a warning
echo '#include "samvolip_objects.h"' > "$made/only.c"
for more in -O2 -DSAMVOLIP_CHECKED; do
    for standard in c99 c11 c17; do
        "$cc" -std=$standard "${strict[@]}" "${flags[@]}" $more -fsyntax-only "$made/only.c"
    done
    for standard in c++11 c++17 c++20; do
        "$cxx" -x c++ -std=$standard "${strict[@]}" -Wold-style-cast "${flags[@]}" $more -fsyntax-only "$made/only.c"
    done
done
for compiler in gcc clang; do
    for source in "$here"/src/*.c; do
        ! command -v $compiler > "$made/line" || $compiler -std=gnu11 "${strict[@]}" "${flags[@]}" -c "$source" -o "$made/only.o"
    done
done
say "the headers compile as C and as C++"

mapfile -t rows < <(tests)
for row in "${rows[@]}"; do
    read -r test kinds <<< "$row"
    for kind in $kinds; do
        IFS='=,' read -ra words <<< "$kind"
        case "${words[0]}" in
            sanitized) for sanitizer in address thread; do try "$test" $sanitizer "${words[@]:1}"; done ;;
            musl) ! command -v musl-gcc > "$made/line" || try "$test" "${words[@]}" ;;
            *) try "$test" "${words[@]}" ;;
        esac
    done
    say "$test: ${kinds//=+([^ ])/}"
done
command -v musl-gcc > "$made/line" || say "no musl-gcc here: the tests with musl were left out"

# each broken rule is told by the checks
build broken "$here/tests/broken.c"
rules=29
for rule in $(seq $rules); do
    ! ("$made/broken" "$rule"; exit $?) 2> "$made/line" || fail "rule $rule isn't checked"
    grep -q '^samvolip_[a-z_]*: ' "$made/line" || fail "rule $rule isn't told"
done
say "$rules broken rules told"

for example in cache:trace limiter:requests; do
    build "${example%:*}" "$here/examples/${example%:*}.c"
    numbers "${example#*:}" > "$made/${example#*:}"
    quietly "$made/${example%:*}" 4 < "$made/${example#*:}" || fail "the example ${example%:*} fails"
done
shown c > "$made/hello.c"
build hello "$made/hello.c"
[ "$("$made/hello")" = 5 ] || fail "the program of docs/c.md prints something else"
say "the examples and the page's program run"

while read -r bench words; do
    [ -x "$made/bench.$bench" ] || build "bench.$bench" "$here/bench/$bench.c" -O0
    # shellcheck disable=SC2086
    quietly "$made/bench.$bench" $words < /dev/null || fail "the benchmark $bench fails"
done << 'TABLE'
kinds 1
hot 4 1000 1
full 8 1
large 17 3
endless stops 10000 2
endless growth 10000 2
TABLE
say "the benchmarks run"
say "well"
