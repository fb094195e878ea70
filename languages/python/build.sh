#!/usr/bin/env bash
# Makes the wheel of the package, for each CPython from 3.10 on: build.sh FOLDER. SAMVOLIP_LIB is the folder of libsamvolip.a; without
# it that is languages/c/out. No network is used. It takes PYTHON, python3, or else Debian's, whichever has its headers, pip, setuptools
# and wheel; build.sh --which says which, or that there is none. Of a PYTHON without a global lock it is a wheel for that version alone.
set -euo pipefail
here="$(cd "$(dirname "${BASH_SOURCE[0]}")" && pwd)"
library="${SAMVOLIP_LIB:-$here/../c/out}/libsamvolip.a"
can() {
    "$1" -c 'import os, setuptools, wheel, pip, sys, sysconfig
header = sysconfig.get_path("include") + "/Python.h"
sys.exit(sys.version_info < (3, 10) or not os.path.exists(header))' 2> /dev/null
}
python="${PYTHON:-python3}"
[ -n "${PYTHON:-}" ] || can "$python" || python=/usr/bin/python3
can "$python" || { echo "build.sh: no Python 3.10 or later here with its headers, pip, setuptools and wheel" >&2; exit 1; }
[ "${1:?build.sh FOLDER}" != --which ] || { command -v "$python"; exit; }
[ -f "$library" ] || { echo "build.sh: there is no $library" >&2; exit 1; }

# in a folder of its own, since setuptools leaves files beside the sources
made="$(mktemp -d)"
trap 'rm -rf "$made"' EXIT
cp -R "$here"/{pyproject.toml,setup.py,src} "$made"
mkdir "$made/samvolip" "$made/lib"
cp "$here"/samvolip/*.{py,pyi} "$here/samvolip/py.typed" "$made/samvolip"
ln -s "$here/../c/include" "$made/include"
ln -s "$(realpath "$library")" "$made/lib/libsamvolip.a"
export SAMVOLIP_LIB="$made/lib"
# the same files make the same wheel
export SOURCE_DATE_EPOCH="${SOURCE_DATE_EPOCH:-$(git -C "$here" log -1 --format=%ct 2> /dev/null || echo 315532800)}"
"$python" -m pip wheel --quiet --disable-pip-version-check --no-index --no-deps --no-build-isolation -w "$1" \
    --config-settings=--build-option=--plat-name=manylinux_2_34_x86_64 "$made"
