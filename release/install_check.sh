#!/bin/sh
# release/install_check.sh: tests make install, install-lib and uninstall in a scratch directory, with the program and the
# library that are built. It needs a C compiler and pkg-config.
set -eu
cd "$(dirname "$0")/.."
scratch=$PWD/build/installed
rm -rf "$scratch"
mkdir -p "$scratch"

die() {
    echo "$*" >&2
    exit 1
}

# The system's commands without the kit's, as for a user who has not built mpslp.
mkdir "$scratch/path"
ln -sf -t "$scratch/path" /bin/* /usr/bin/*
rm -f "$scratch/path/rt"

make_without_kit() {
    env -u MAKEFLAGS -u MAKELEVEL PATH="$scratch/path" make --no-print-directory "$@" > "$scratch/log" 2>&1 || die "make $*: $(cat "$scratch/log")"
}

# What pkg-config prints for an installed library, and a program that uses each of its two forms.
use() {
    mpslp=$1/bin/mpslp
    libdir=$2
    export PKG_CONFIG_PATH="$libdir/pkgconfig"
    test "$(pkg-config --variable=prefix mpslp)" = "$1" || die "the prefix of mpslp.pc is $(pkg-config --variable=prefix mpslp)"
    test "$(pkg-config --variable=libdir mpslp)" = "$libdir" || die "the libdir of mpslp.pc is $(pkg-config --variable=libdir mpslp)"
    test "$(pkg-config --modversion mpslp)" = "$(cat VERSION)" || die "the version of mpslp.pc is $(pkg-config --modversion mpslp)"
    flags=$(pkg-config --cflags --libs mpslp)
    eval "${CC:-cc} -o '$scratch/shared' tests/c/program.c $flags"
    eval "${CC:-cc} -o '$scratch/static' tests/c/program.c $(echo "$flags" | sed 's/-lmpslp/-l:libmpslp.a/')"
    "$mpslp" canon mps mps examples/small.mps | cmp - examples/small.canonical.mps
    LD_LIBRARY_PATH=$libdir "$scratch/shared" canon mps mps examples/small.mps | cmp - examples/small.canonical.mps
    "$scratch/static" canon mps mps examples/small.mps | cmp - examples/small.canonical.mps
    for file in man/man1/mpslp.1 man/man1/mpslp-tools.1 doc/mpslp/README.md doc/mpslp/docs/C.md doc/mpslp/docs/SOLVERS.md doc/mpslp/examples/small.mps; do
        test -s "$1/share/$file" || die "$1/share/$file is missing"
    done
    for table in adapt errors portable warnings; do
        cmp "docs/$table.tsv" "$1/share/doc/mpslp/docs/$table.tsv"
    done
    python3 release/links.py "$1/share/doc/mpslp" > "$scratch/log" || die "$(cat "$scratch/log")"
}

# No file is left, and no directory but those that every package shares.
is_gone() {
    find "$1" -mindepth 1 ! -path "$1/bin" ! -path "$1/lib" ! -path "$1/include" ! -path "$1/share" ! -path "$1/share/man" ! -path "$1/share/doc" > "$scratch/left"
    test ! -s "$scratch/left" || die "uninstall leaves $(cat "$scratch/left")"
}

# A prefix relative to the repository, with a space in it.
make_without_kit install install-lib PREFIX='build/installed/a prefix'
use "$scratch/a prefix" "$scratch/a prefix/lib"
make_without_kit uninstall PREFIX='build/installed/a prefix'
is_gone "$scratch/a prefix"

# A library in a directory of its own, within the prefix and outside.
for libdir in "$scratch/usr/lib/x86_64-linux-gnu" "$scratch/libraries"; do
    make_without_kit install install-lib PREFIX="$scratch/usr" LIBDIR="$libdir"
    use "$scratch/usr" "$libdir"
    make_without_kit uninstall PREFIX="$scratch/usr" LIBDIR="$libdir"
    rmdir "$libdir" || die "uninstall leaves $(ls "$libdir")"
    is_gone "$scratch/usr"
done

# A staging directory, whose path is in no file. Other installed files are kept.
make_without_kit install install-lib DESTDIR="$scratch/stage" PREFIX=/usr LIBDIR=/usr/lib64
! grep -rlF "$scratch" "$scratch/stage" || die "a file has the path of the staging directory"
grep -qx 'prefix=/usr' "$scratch/stage/usr/lib64/pkgconfig/mpslp.pc"
echo other > "$scratch/stage/usr/share/zsh/site-functions/_other"
make_without_kit uninstall DESTDIR="$scratch/stage" PREFIX=/usr LIBDIR=/usr/lib64
test "$(find "$scratch/stage" -type f)" = "$scratch/stage/usr/share/zsh/site-functions/_other" || die "uninstall takes away too much, or leaves $(find "$scratch/stage" -type f)"

# What the library is built from: if a file is newer, it is built again.
for source in crates.txt crates/mpslp_c/src/storing.rt include/mpslp.h lib/build.sh lib/inline.c lib/doubles.c lib/mpslp.map VERSION; do
    make -n -W "$source" install-lib | grep -qx 'sh lib/build.sh' || die "install-lib installs a library that is older than $source"
done
! make -n install-lib python | grep -q 'lib/build.sh' || die "install-lib or python builds again what is built"

# Repeating an install or an uninstall changes nothing.
make_without_kit install install install-lib uninstall uninstall PREFIX="$scratch/twice"
is_gone "$scratch/twice"
rm -rf "$scratch"
echo "installed and taken away again: with relative and absolute prefixes, LIBDIR and DESTDIR, without the kit"
