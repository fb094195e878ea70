#!/usr/bin/env bash
# Makes samvolip.jar: make.sh FOLDER [LIBRARY] writes FOLDER/samvolip.jar, with LIBRARY in it, if that is named, which is the file
# libsamvolip.so. It prints a line for each Java that the jar serves: its version and its folder. It takes a JDK 17 and a JDK 22 or
# later, as many of the two as there are: in JAVA_HOME, on the PATH, in /usr/lib/jvm. With both, the jar serves both.
set -euo pipefail
here="$(cd "$(dirname "${BASH_SOURCE[0]}")" && pwd)"
to="${1:?make.sh FOLDER [LIBRARY]}"
library="${2:-}"
mkdir -p "$to"
to="$(cd "$to" && pwd)"

old=
new=
for compiler in ${JAVA_HOME:+"$JAVA_HOME/bin/javac"} "$(command -v javac || true)" /usr/lib/jvm/*/bin/javac; do
    [ -x "$compiler" ] || continue
    home="$(dirname "$(dirname "$(readlink -f "$compiler")")")"
    [ -x "$home/bin/jar" ] && [ -f "$home/release" ] || continue
    version="$(sed -n 's/^JAVA_VERSION="\([0-9]*\).*/\1/p' "$home/release")"
    if [ "$version" = 17 ]; then old="${old:-$version $home}"; fi
    if [ "${version:-0}" -ge 22 ]; then new="${new:-$version $home}"; fi
done
[ -n "$old$new" ] || { echo "make.sh: no JDK at all: neither 17, nor 22 or later" >&2; exit 1; }
[ -n "$old" ] || echo "no JDK 17 here: the jar doesn't serve it" >&2
[ -n "$new" ] || echo "no JDK of 22 or later here: the jar serves Java 17 alone" >&2

made="$(mktemp -d)"
trap 'rm -rf "$made"' EXIT
short=(-J-XX:TieredStopAtLevel=1 -J-XX:+UseSerialGC) # it ends before the second compiler is worth its time
mkdir "$made/base"
printf 'Automatic-Module-Name: samvolip\nMulti-Release: true\n' > "$made/manifest"
more=()
if [ -n "$old" ]; then
    "${old#* }/bin/javac" "${short[@]}" --add-modules jdk.incubator.foreign -nowarn -d "$made/base" \
        "$here"/samvolip/*.java "$here"/java17/samvolip/*.java 2> "$made/told" || { cat "$made/told" >&2; exit 1; }
    if [ -n "$new" ]; then
        # all of it against Java 22's API, although Native alone is another class than Java 17's
        mkdir "$made/new"
        "${new#* }/bin/javac" "${short[@]}" --release 22 -d "$made/new" "$here"/samvolip/*.java "$here"/java22/samvolip/*.java
        more=(--release 22 -C "$made/new" samvolip/Native.class)
    fi
else
    "${new#* }/bin/javac" "${short[@]}" --release 22 -d "$made/base" "$here"/samvolip/*.java "$here"/java22/samvolip/*.java
fi
[ -z "$library" ] || cp "$library" "$made/base/samvolip/libsamvolip.so"
tools="${new:-$old}"
"${tools#* }/bin/jar" "${short[@]}" --create --file "$to/samvolip.jar" --manifest "$made/manifest" -C "$made/base" . ${more[@]+"${more[@]}"}
for java in "$old" "$new"; do [ -z "$java" ] || echo "$java"; done
