#!/usr/bin/env bash
# Tests the package of Python: test.sh FOLDER, which .ci/library has written. The wheel is made and unpacked, and the tests run over
# it, also with numpy's arrays and without a global lock; mypy looks at the types. A line says what is left out for want of a tool.
# shellcheck source=languages/test.bash
source "$(dirname "${BASH_SOURCE[0]}")/../test.bash"

# wheel FOLDER PYTHON FILE: makes the wheel of a Python, and unpacks it to FOLDER
wheel() {
    PYTHON="$2" SAMVOLIP_LIB="$library" quietly "$here/build.sh" "$made/wheel.$1" || fail "the wheel of $2 isn't built"
    # shellcheck disable=SC2086
    "$2" -m zipfile -e "$made/wheel.$1"/$3 "$made/$1"
}
# tests FOLDER PYTHON [FLAG]: the tests over a wheel that is unpacked
tests() {
    for test in turns samvolip mapping; do
        PYTHONPATH="$made/$1" quietly "${@:2}" "$here/tests/test_$test.py" || fail "the test $test fails with $2"
    done
}

if python="$("$here/build.sh" --which 2> "$made/errors")"; then
    headers="$("$python" -c 'import sysconfig; print(sysconfig.get_path("include"))')"
    "$cc" -std=c11 "${flags[@]}" -Wconversion -Wsign-conversion -isystem "$headers" -fsyntax-only "$here"/src/*.c
    wheel package "$python" '*.whl'
    # the tests run with python3, or with the Python that made it
    ! python3 -c 'import sys; sys.exit(sys.version_info < (3, 10))' 2> "$made/errors" || python=python3
    tests package "$python"
    say "the tests run"
    say "$(sed -n 's/^python: //p' "$made/line")"
    PYTHONPATH="$made/package" quietly "$python" "$here/bench/cost.py" 1000 10000 || fail "the benchmark fails"

    numpy=""
    for name in python3 /usr/bin/python3; do [ -n "$numpy" ] || ! "$name" -c 'import numpy' 2> "$made/errors" || numpy="$name"; done
    if [ -n "$numpy" ]; then
        PYTHONPATH="$made/package" quietly "$numpy" "$here/tests/test_samvolip.py" Batches.test_numpy ||
            fail "the test of numpy's arrays fails"
    else
        say "no numpy here: batches of its arrays were left out"
    fi

    # without a global lock: a wheel of that version's own
    free="$(compgen -c | grep -E '^python3\.[0-9]+t$' | sort -Vu | tail -n 1 || true)"
    if [ -n "$free" ] && PYTHON="$free" quietly "$here/build.sh" --which; then
        wheel free "$free" 'samvolip-*-cp3??-cp3??t-*.whl'
        tests free "$free" -W error
        say "the tests run with $free, without a global lock"
    else
        say "no Python without a global lock here, with its headers, pip, setuptools and wheel: its wheel was left out"
    fi
else
    say "no Python 3.10 or later here with its headers, pip, setuptools and wheel: the tests were left out"
fi

# the types: the package strictly; its tests, where mypy has to refuse what is wrong on purpose; and the programs of its page
if command -v mypy > "$made/line"; then
    typed() { (cd "$here" && MYPYPATH="$here" quietly mypy --config-file= --cache-dir="$made/mypy" "$@") || fail "mypy refuses it"; }
    mkdir "$made/programs"
    awk -v to="$made/programs/" '
        /^    # [a-z]+\.py: / { name = $2; sub(":", "", name) }
        /^[^ ]/ { name = "" }
        name != "" { sub("^    ", ""); print > (to name) }' "$top/docs/python.md"
    typed --strict samvolip
    typed --check-untyped-defs --warn-unused-ignores tests/test_{samvolip,mapping,turns}.py bench/cost.py "$made"/programs/*.py
    say "mypy takes the package strictly, and its tests and programs"
else
    say "no mypy here: the types weren't looked at"
fi
say "well"
