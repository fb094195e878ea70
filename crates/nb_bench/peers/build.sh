#!/bin/sh
# Builds the peers for the machine that Rattle builds for (x86-64-v2), each in out/. On Debian 12 they want
#     apt-get install g++ libtbb-dev libcuckoo-dev libcds-dev liburcu-dev libjctools-java default-jdk-headless
#     apt-get install cargo librust-dashmap-dev librust-fxhash-dev
# A peer whose package isn't there is left out, and a line says so. The exit status is 1 if one can't be built though its package is.
cd "$(dirname "$0")" && mkdir -p out || exit 1
status=0

# left_out PEER PACKAGE: says so, and takes away what an earlier run built
left_out() { echo "$1: left out, there is no $2"; rm -f "out/$1"; }

# built PEER COMMAND..: builds it, or says that this failed
built() {
    peer=$1
    shift
    if "$@"; then echo "$peer: built"; else echo "$peer: can't be built"; rm -f "out/$peer"; status=1; fi
}

# cpp PEER SOURCE HEADER PACKAGE [LIBRARY..]: one in C++, if its header is there
cpp() {
    peer=$1 source=$2 header=$3 package=$4
    shift 4
    if echo "#include <$header>" | g++ -std=c++20 -E -x c++ - > /dev/null 2>&1; then
        built "$peer" g++ -O3 -march=x86-64-v2 -std=c++20 -pthread "$source" -o "out/$peer" "$@"
    else
        left_out "$peer" "$package"
    fi
}

cpp limit limit.cpp atomic g++
cpp tbb tbb_hash.cpp tbb/concurrent_hash_map.h libtbb-dev -ltbb
cpp cuckoo cuckoo.cpp libcuckoo/cuckoohash_map.hh libcuckoo-dev
cpp feldman feldman.cpp cds/init.h libcds-dev -lcds
cpp michael michael.cpp cds/init.h libcds-dev -lcds
cpp lfht lfht.cpp urcu/rculfhash.h liburcu-dev -lurcu-memb -lurcu-cds

rm -f out/*.class
jctools=/usr/share/java/jctools-core.jar
if command -v javac > /dev/null; then
    built chm javac -d out Bench.java
    if [ -f $jctools ]; then built nbhml javac -cp out:$jctools -d out Nbhml.java; else left_out nbhml libjctools-java; fi
else
    left_out chm default-jdk-headless
    left_out nbhml default-jdk-headless
fi

if command -v rustc > /dev/null; then
    built mutex rustc --edition 2021 -C opt-level=3 -C lto=fat -C codegen-units=1 -C panic=abort -C target-cpu=x86-64-v2 \
        rust/mutex.rs -o out/mutex
else
    left_out mutex rustc
fi
registry=/usr/share/cargo/registry
if command -v cargo > /dev/null && ls -d $registry/dashmap-* $registry/fxhash-* > /dev/null 2>&1; then
    rm -f out/dash out/lines out/cargo/release/dash out/cargo/release/lines
    built dash env RUSTFLAGS='-C target-cpu=x86-64-v2' cargo build --release --offline --quiet \
        --manifest-path rust/Cargo.toml --target-dir out/cargo \
        --config 'source.crates-io.replace-with="debian"' --config "source.debian.directory=\"$registry\""
    for peer in dash lines; do if [ -f out/cargo/release/$peer ]; then cp out/cargo/release/$peer out/$peer; fi; done
else
    rm -f out/lines
    left_out dash 'librust-dashmap-dev, librust-fxhash-dev or cargo'
fi
exit $status
