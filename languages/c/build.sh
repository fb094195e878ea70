#!/usr/bin/env bash
# Makes libraries that need no kit of libnb_ffi.a, which `rt lib` builds in crates/nb_ffi: build.sh [FOLDER] writes to FOLDER (out/
# here by default) libsamvolip.so, with the file that it stands for, and libsamvolip.a. Both show the names of samvolip.h,
# samvolip_map.h and samvolip_objects.h and no others. Beside the proved part they have their own memory for large tables
# (src/memory.c), and the map without an end (src/endless.h says which files) with its objects (src/objects.c). KIT is the kit's folder,
# CC the compiler.
set -euo pipefail
here="$(cd "$(dirname "${BASH_SOURCE[0]}")" && pwd)"
to="${1:-$here/out}"
kit="${KIT:-$(dirname "$(rt doc)")}"
top="$here/../.."
archive="$top/crates/nb_ffi/out/libnb_ffi.a"
version="$(cat "$top/VERSION")"
name="libsamvolip.so.${version%%.*}"
[ -f "$archive" ] || { echo "build.sh: first run rt lib in crates/nb_ffi" >&2; exit 1; }
mkdir -p "$to"
sources=(memory map lanes gate renewal whole_map walks bindings objects)
for source in "${sources[@]}"; do
    "${CC:-cc}" -std=gnu11 -O2 -fPIC -Wall -Wextra -I"$here/include" -c "$here/src/$source.c" -o "$to/$source.o"
done
objects=("${sources[@]/%/.o}")
parts=("@$here/src/links" "${objects[@]/#/$to/}" -Wl,--whole-archive "$archive" -Wl,--no-whole-archive "$kit/c/liblibc_c.a")

# the calls in cores are for the files here
own="$(grep -oE 'samvolip_core_[a-z_]+\(' "$here/src/cores.h" | tr '(\n' '; ')"
printf '{ global: samvolip_*; local: %s *; };\n' "$own" > "$to/samvolip.map"
rm -f "$to/libsamvolip.so" "$to/$name"
"${CC:-cc}" -shared -o "$to/libsamvolip.so.$version" -Wl,-soname,"$name" -Wl,--version-script="$to/samvolip.map" \
    -Wl,-z,defs -Wl,-z,nodelete -Wl,-Bsymbolic-functions "${parts[@]}" -lpthread
ln -s "libsamvolip.so.$version" "$to/$name"
ln -s "$name" "$to/libsamvolip.so"
rm "$to/samvolip.map"

# one object file, whose other names are its own, so that they meet none of a program's
"${CC:-cc}" -r -nostdlib -o "$to/samvolip.o" "${parts[@]}"
"${OBJCOPY:-objcopy}" --wildcard --keep-global-symbol='!samvolip_core_*' --keep-global-symbol='samvolip_*' "$to/samvolip.o"
rm -f "$to/libsamvolip.a"
"${AR:-ar}" rcsD "$to/libsamvolip.a" "$to/samvolip.o"
rm "$to/samvolip.o" "${objects[@]/#/$to/}"
