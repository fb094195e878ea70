#!/usr/bin/env bash
# Tests the library for C++: test.sh FOLDER, which .ci/library has written. Its headers compile without a warning, its tests run
# also with the checks, without exceptions, under the sanitizers and with each request for memory refused; its examples, the page's
# program and its benchmarks run.
# shellcheck source=languages/test.bash
source "$(dirname "${BASH_SOURCE[0]}")/../test.bash"

printf '#include "samvolip_%s.hpp"\n' seats objects > "$made/only.cpp"
for standard in c++17 c++20; do
    for more in -O2 -DSAMVOLIP_CHECKED "-fno-exceptions -fno-rtti"; do
        # shellcheck disable=SC2086
        "$cxx" -std=$standard "${strict[@]}" -Wold-style-cast -Wshadow "${flags[@]}" $more -fsyntax-only "$made/only.cpp"
    done
done
say "the headers compile"

for test in map threads seats objects; do
    build_cpp $test "$here/tests/$test.cpp"
    "$made/$test"
    for more in -DSAMVOLIP_CHECKED "-fno-exceptions -fno-rtti -std=c++20"; do
        # shellcheck disable=SC2086
        build_cpp $test.more "$here/tests/$test.cpp" -O0 $more
        quietly "$made/$test.more" 4000 || fail "the test $test fails with $more"
    done
done
for sanitizer in address,undefined thread; do
    sanitize $sanitizer
    for test in map threads seats objects; do
        (links=("${sanitized[@]}" "${parts_links[@]}"); build_cpp $test.sanitized "$here/tests/$test.cpp" "${sanitizing[@]}")
        quietly "$made/$test.sanitized" 4000 || fail "the test $test fails under -fsanitize=$sanitizer"
    done
    (links=("${sanitized[@]}" "${parts_links[@]}"); build_cpp churn.sanitized "$here/bench/churn.cpp" "${sanitizing[@]:1}")
    count=200000
    [ $sanitizer = thread ] || count=1000000
    quietly "$made/churn.sanitized" $count || fail "objects that come and go fail under -fsanitize=$sanitizer"
done
build_cpp memory "$here/tests/memory.cpp"
refuse memory
say "the tests run, also under the sanitizers"

# an example says the same by one thread and by eight; the page's program prints what stands behind 'It prints'
build_cpp count "$here/examples/count.cpp"
build_cpp sessions "$here/examples/sessions.cpp"
numbers trace > "$made/trace"
for example in count sessions; do
    for threads in 1 8; do "$made/$example" $threads < "$made/trace" > "$made/$example.$threads"; done
    cmp "$made/$example.1" "$made/$example.8" || fail "the example $example says otherwise by eight threads"
done
shown cpp > "$made/hello.cpp"
build_cpp hello "$made/hello.cpp"
"$made/hello" | diff <(sed -n '/^It prints/,/^#/s/^    //p' "$top/docs/cpp.md") - || fail "the program of docs/cpp.md prints something else"
say "the examples and the page's program run"

# what calls cost beside other maps, workloads of the map and of the map without an end, calls, and objects that come and go
tbb=()
! echo '#include <tbb/concurrent_hash_map.h>' | "$cxx" -E -x c++ - > "$made/line" 2>&1 || tbb=(-ltbb)
(links+=("${tbb[@]}"); build_cpp bench.beside "$here/bench/beside.cpp" -O0)
quietly "$made/bench.beside" 1000 1 1000 || fail "the benchmark beside fails"
for bench in bench endless; do
    "$cxx" -std=c++17 -O0 -I"$library/include" "$here/bench/$bench.cpp" -o "$made/bench.$bench" "${links[@]}"
    for workload in A B C D E; do quietly "$made/bench.$bench" $workload 2 0.05 || fail "the benchmark $bench $workload fails"; done
done
build_cpp bench.calls "$here/bench/calls.cpp" -O0
quietly "$made/bench.calls" 1 1000 || fail "the benchmark calls fails"
build_cpp bench.churn "$here/bench/churn.cpp"
for words in 1000000 "costs 1 1000"; do
    # shellcheck disable=SC2086
    quietly "$made/bench.churn" $words || fail "the benchmark churn $words fails"
done
say "the benchmarks run"
say "well"
