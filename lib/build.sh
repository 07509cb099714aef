#!/bin/sh
# lib/build.sh: makes build/libmpslp.a and build/libmpslp.so.0 from the proved crate mpslp_c, the kit's heap, and C: the inline
# functions of the header, the conversions of doubles, and the seeds of the calls.
#
# lib/build.sh gate: the same over the libraries that rt ci has proved for the gate and left in build/ci/.
set -eu
cd "$(dirname "$0")/.."
kit=$(dirname "$(rt doc)")
root=$PWD
if test "${1:-}" = gate; then
    python3 scripts/prove.py mpslp_c --over build/ci/crates
else
    python3 scripts/prove.py mpslp_c
fi
rm -rf build/objects
mkdir -p build/objects
(cd build/objects && ar x "$root/crates/mpslp_c/out/libmpslp_c.a" && ar x "$kit/c/liblibc_c.a" heap.pic.o)
compile() {
    "${CC:-cc}" -std=c99 -O2 -fPIC -Wall -Wextra -Iinclude "-DMPSLP_LIBRARY_VERSION=\"$(cat VERSION)\"" -c -o "build/objects/$1.o" "lib/$1.c"
}
# One object of the crate, its heap, and the calls that take a seed from the system. The names by which one calls the other are local:
# a program may define the same ones.
compile seeded
(cd build/objects && "${LD:-ld}" -r -o mpslp.o ./*.o && find . -name '*.o' ! -name mpslp.o -delete)
"${OBJCOPY:-objcopy}" --wildcard --keep-global-symbol='mpslp_*' build/objects/mpslp.o
compile inline
compile doubles
rm -f build/libmpslp.a
ar rcs build/libmpslp.a build/objects/*.o
"${CC:-cc}" -shared -Wl,-soname,libmpslp.so.0 -Wl,--version-script=lib/mpslp.map -Wl,-z,defs -o build/libmpslp.so.0 build/objects/*.o
ln -sf libmpslp.so.0 build/libmpslp.so
