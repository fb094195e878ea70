"""The extension module, which pyproject.toml can't tell of: it has libsamvolip.a in it, and so needs no other file as it runs.

The library is in the folder that SAMVOLIP_LIB names, or else where languages/c/build.sh of the repository puts it. Its headers are
beside the repository's source, or in the folder include beside that folder, as they are installed.
"""

import os
import re
import sys
import sysconfig

from setuptools import Extension, setup

HERE = os.path.dirname(os.path.abspath(__file__))
LANGUAGES = os.path.dirname(HERE)
LIB = os.environ.get("SAMVOLIP_LIB") or f"{LANGUAGES}/c/out"
LIBRARY = f"{LIB}/libsamvolip.a"
HAS_STABLE_ABI = not sysconfig.get_config_var("Py_GIL_DISABLED")  # one wheel for all versions; without a global lock one for each
HEADERS = [f"{LIB}/../include", f"{LANGUAGES}/c/include"]


def headers():
    """The folder of samvolip_map.h."""
    for folder in HEADERS:
        if os.path.exists(f"{folder}/samvolip_map.h"):
            return folder
    sys.exit(f"samvolip: there is no samvolip_map.h in {HEADERS[0]}, nor in {HEADERS[1]}")


def version(folder):
    """The header's version, as 0.9.0."""
    with open(f"{folder}/samvolip.h") as file:
        number = int(re.search(r"define SAMVOLIP_VERSION (0x\w+?)u", file.read())[1], 16)
    return f"{number >> 16}.{number >> 8 & 255}.{number & 255}"


if not os.path.exists(LIBRARY):
    sys.exit(f"samvolip: there is no {LIBRARY}. SAMVOLIP_LIB names the folder of libsamvolip.a; "
        "in the repository languages/c/build.sh makes it")

setup(
    version=version(headers()),
    ext_modules=[
        Extension(
            "samvolip._map",
            ["src/_map.c", "src/entries.c", "src/shared.c"],
            include_dirs=[headers()],
            extra_objects=[LIBRARY],
            extra_compile_args=["-std=c11", "-O2", "-g0", "-fvisibility=hidden"],
            # its names meet none of another copy of the library, and it stays where it is: threads end by it
            extra_link_args=["-Wl,--exclude-libs,ALL", "-Wl,-z,nodelete", "-lpthread"],
            depends=[LIBRARY, "src/entries.h", "src/shared.h"],
            py_limited_api=HAS_STABLE_ABI,
        )
    ],
    options={"bdist_wheel": {"py_limited_api": "cp310"}} if HAS_STABLE_ABI else {},
)
