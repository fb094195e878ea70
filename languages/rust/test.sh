#!/usr/bin/env bash
# Tests the crate of Rust: test.sh FOLDER, which .ci/library has written. Its tests run with the shared library, its example also by
# pkg-config, without a warning of cargo's tools; and the tests under the sanitizers, where a nightly is that tells a race. Without
# cargo a line says that all was left out.
# shellcheck source=languages/test.bash
source "$(dirname "${BASH_SOURCE[0]}")/../test.bash"
command -v cargo > "$made/line" || { say "no cargo here: the tests were left out"; exit; }

# what is built once needs no files for a second time, and of what a debugger reads just the lines: the sanitizers tell of them
export CARGO_TERM_QUIET=true CARGO_NET_OFFLINE=true CARGO_INCREMENTAL=0 CARGO_PROFILE_DEV_DEBUG=line-tables-only
shared="$library/libsamvolip.so"
# rust TARGET EXPECTED WORD..: cargo with these words; its output is that of the example's file, where one is named
rust() {
    if (cd "$here" && CARGO_TARGET_DIR="$made/$1" cargo "${@:3}" > "$made/line" 2> "$made/errors"); then
        [ -z "$2" ] || diff "$made/line" "$here/examples/$2" || fail "cargo ${*:3} prints something else"
    else
        cat "$made/line" "$made/errors"
        fail "cargo ${*:3} fails"
    fi
}
SAMVOLIP_LIB="$shared" rust rust "" test
SAMVOLIP_LIB="$library" rust rust visits.out run --example visits
if command -v pkg-config > "$made/line"; then
    (unset SAMVOLIP_LIB; PKG_CONFIG_PATH="$library/pkgconfig" rust rust visits.out run --example visits)
fi
SAMVOLIP_LIB="$library" rust rust "" run --example cost 1000 1
say "the tests and the examples run"
SAMVOLIP_LIB="$library" RUSTDOCFLAGS="-D warnings" rust rust "" doc
! cargo clippy --version > "$made/line" 2>&1 || SAMVOLIP_LIB="$library" rust rust "" clippy --all-targets -- -D warnings
! cargo fmt --version > "$made/line" 2>&1 || rust rust "" fmt --check
say "no tool of cargo's has a warning"

# The sanitizers look at the crate and its tests, and not into the library, nor into std; so some of what std does would look like a
# race. docs/DECISIONS.md goes through it.
nightly="$(rustup toolchain list 2> /dev/null | sed -n 's/^\(nightly[^ ]*\).*/\1/p' | head -n 1 || true)"
host="$(rustc -vV | sed -n 's/^host: //p')"
mismatch=-Cunsafe-allow-abi-mismatch=sanitizer
cat > "$made/race.rs" << 'RUST'
static mut NUMBER: u64 = 0;
fn main() {
    let other = std::thread::spawn(|| unsafe { NUMBER += 1 });
    unsafe { NUMBER += 1 };
    other.join().unwrap();
}
RUST
tells_a_race() {
    rustc "+$nightly" --target "$host" -Zsanitizer=thread $mismatch "$made/race.rs" -o "$made/race" 2> "$made/errors" || return 1
    ! TSAN_OPTIONS='' "$made/race" 2> "$made/errors" && grep -q "ThreadSanitizer: data race" "$made/errors"
}
cat > "$made/unseen" << 'RACES'
race:<alloc::sync::Weak<*as core::ops::drop::Drop>::drop
race:<alloc::sync::Arc<std::thread::thread::Inner
race:<alloc::sync::Arc<std::thread::scoped::ScopeData
race:std::sync::mpmc::waker::
race:test::event::CompletedTest
race:test::run_test::{closure#0}>>>
race:__wrap_memset
RACES
# sanitized SANITIZER [FLAG]
sanitized() {
    SAMVOLIP_LIB="$shared" RUSTFLAGS="-Zsanitizer=$1 $mismatch ${2:-}" TSAN_OPTIONS="suppressions=$made/unseen" \
        rust "rust-$1" "" "+$nightly" test --test calls --test threads --test objects --target "$host"
}
if [ -n "$nightly" ] && tells_a_race; then
    sanitized address
    sanitized thread "--cfg samvolip_tells_order"
    say "the tests run under the address and the thread sanitizer of $nightly"
else
    say "no nightly of Rust here that tells a race: the tests under the sanitizers were left out"
fi
say "well"
