#!/usr/bin/env bash
# Tests the package with each Java that is here: test.sh FOLDER, which .ci/library has written. Where the jars of Debian's
# libguava-testlib-java and junit4 are here, it runs Guava's tests of a ConcurrentMap, too. Without a JDK a line says that all was left
# out.
# shellcheck source=languages/test.bash
source "$(dirname "${BASH_SOURCE[0]}")/../test.bash"
shared="$library/libsamvolip.so"
unset SAMVOLIP_LIB

# what is compiled once serves each Java that comes after, and what runs for a moment isn't worth the second compiler
short=(-XX:TieredStopAtLevel=1 -XX:+UseSerialGC)
if ! "$here/make.sh" "$made" > "$made/javas" 2> "$made/errors"; then
    cat "$made/errors"
    grep -q "^make.sh: no JDK at all" "$made/errors" || fail "the jar isn't made"
    say "no JDK 17, and none of 22 or later, here: the tests were left out"
    exit
fi
cat "$made/errors"
guava=
for jar in guava-testlib guava junit4; do guava="$guava:/usr/share/java/$jar.jar"; done
# shellcheck disable=SC2086
if ! ls ${guava//:/ } > "$made/line" 2>&1; then
    say "Guava's tests of a ConcurrentMap were left out, since their jars aren't in /usr/share/java"
    guava=
fi

read -r version home < "$made/javas"
[ "$version" = 17 ] || version=22
mkdir "$made/page"
awk '/^    import samvolip\.\*;/ { shown = 1 } /^[^ ]/ { shown = 0 } shown { sub("^    ", ""); print }' "$top/docs/java.md" \
    > "$made/page/Hello.java"
sources=("$here"/tests/SamvolipTest.java "$here"/examples/*.java "$here"/bench/*.java "$made/page/Hello.java")
[ -z "$guava" ] || sources+=("$here/tests/GuavaTest.java")
"$home/bin/javac" "${short[@]/#/-J}" --release "$version" -cp "$made/samvolip.jar$guava" -d "$made/tests" "${sources[@]}"

# the same jar with the library in it
mkdir -p "$made/samvolip" "$made/temporary"
cp "$shared" "$made/samvolip/libsamvolip.so"
cp "$made/samvolip.jar" "$made/whole.jar"
"$home/bin/jar" --update --file "$made/whole.jar" -C "$made" samvolip/libsamvolip.so

# java_with WORD..: this Java; what it prints is in $made/told, and shown where it fails
java_with() { "$home/bin/java" "$@" > "$made/told" 2> "$made/errors" || { cat "$made/told" "$made/errors"; return 1; }; }
# says_two WHAT FLAG..: the first program of the page, so started
says_two() {
    java_with "${short[@]}" "${@:2}" Hello || fail "the page's program fails $1"
    [ "$(cat "$made/told")" = 2 ] || fail "the page's program prints something else $1"
}
# told LINE FLAG..: so started it ends, and says this
told() {
    ! "$home/bin/java" "${short[@]}" "${@:2}" Hello > "$made/told" 2>&1 || fail "Java $version finds a library where there is none"
    grep -qF -- "$1" "$made/told" || { cat "$made/told"; fail "Java $version doesn't tell: $1"; }
}

while read -r version home; do
    flags=(--enable-native-access=ALL-UNNAMED -cp "$made/samvolip.jar:$made/tests")
    [ "$version" != 17 ] || flags+=(--add-modules jdk.incubator.foreign)
    java_with "${flags[@]}" -Dsamvolip="$shared" SamvolipTest "$here" || fail "the test of Java $version fails"
    java_with "${flags[@]}" -Dsamvolip="$library" Visits || fail "the example of Java $version fails"
    diff "$here/examples/Visits.out" "$made/told" || fail "the example of Java $version prints something else"
    java_with "${short[@]}" "${flags[@]}" -Dsamvolip="$shared" Cost case 1 add false 20 10000 || fail "the benchmark of Java $version fails"
    if [ -n "$guava" ]; then
        java_with "${short[@]}" "${flags[@]}" -cp "$made/samvolip.jar:$made/tests$guava" -Dsamvolip="$shared" GuavaTest ||
            fail "Guava's tests fail with Java $version"
        say "Java $version: $(cat "$made/told")"
    fi

    # the library in the jar, which leaves no file behind; and the jar as a module
    says_two "with the library in the jar" "${flags[@]}" -cp "$made/whole.jar:$made/tests" -Djava.io.tmpdir="$made/temporary"
    [ -z "$(ls "$made/temporary")" ] || fail "Java $version leaves files behind"
    modules=(-p "$made/samvolip.jar" --add-modules samvolip -cp "$made/tests" -Dsamvolip="$shared")
    more=(--enable-native-access=samvolip)
    [ "$version" != 17 ] || more+=(--add-modules jdk.incubator.foreign)
    says_two "with a module" "${modules[@]}" "${more[@]}"

    # what is told where something is missing: the library, a file that isn't one, the flags of Java 17
    told "libsamvolip.so isn't found. Say where it is by -Dsamvolip=FILE" "${flags[@]}" -Djava.library.path=/none
    told "-Dsamvolip=/none is no libsamvolip.so that can be loaded" "${flags[@]}" -Dsamvolip=/none
    told "the jar's libsamvolip.so can't be loaded from java.io.tmpdir" \
        "${flags[@]}" -cp "$made/whole.jar:$made/tests" -Djava.io.tmpdir=/none
    if [ "$version" = 17 ]; then
        told "Java 17 has to be started with --add-modules" -cp "$made/samvolip.jar:$made/tests" -Dsamvolip="$shared"
        told "Java 17 has to be started with --add-modules" -cp "$made/samvolip.jar:$made/tests" --add-modules jdk.incubator.foreign \
            --enable-native-access=java.logging -Dsamvolip="$shared"
        told "--add-modules jdk.incubator.foreign --enable-native-access=samvolip" "${modules[@]}"
    fi
    say "the test of Java $version runs"
done < "$made/javas"
say "well"
