#!/bin/sh
# release/check.sh: installs the archive and the Debian package of build/dist/ in an empty Debian, one after the other, uses
# them as use.sh does, removes them, and checks that nothing is left. Before that it builds the library and the wheel in two
# directories, as same_bytes.sh says, and compares them.
#
# It needs root, lintian, and debootstrap for the first run, which downloads Debian's base system and keeps it in
# build/roots/; later runs need no network. SUITE and MIRROR name another Debian.
set -eu
cd "$(dirname "$0")/.."
export LC_ALL=C
umask 022
suite=${SUITE:-bookworm}
mirror=${MIRROR:-http://deb.debian.org/debian}
version=$(cat VERSION)
name=mpslp-$version-linux-x86_64
wheel=$(python3 python/wheel_tag.py --name)
archive=build/dist/$name.tar.gz
package=build/dist/mpslp_${version}_amd64.deb
base=build/roots/$suite.tar
root=build/roots/try
# The files that the checks use, within the root. Listings leave them out.
place=/tmp/mpslp

die() {
    echo "$*" >&2
    exit 1
}

test "$(id -u)" = 0 || die "dist-check changes its root and needs the rights of root"
for file in "$archive" "$package"; do
    test -f "$file" || die "$file is missing: make dist"
done

# Debian's smallest base system, with a C compiler, pkg-config, man and python3, as a tar file.
make_base() {
    test ! -f "$base" || return 0
    command -v debootstrap > /dev/null || die "debootstrap is missing: apt-get install debootstrap"
    echo "fetching Debian $suite, once"
    rm -rf build/roots/new
    mkdir -p build/roots
    debootstrap --variant=minbase --include=gcc,libc6-dev,pkgconf,man-db,python3-venv "$suite" build/roots/new "$mirror" > build/roots/log ||
        die "debootstrap failed: build/roots/log"
    chroot build/roots/new apt-get clean
    tar -C build/roots/new -cf "$base.part" .
    rm -rf build/roots/new
    mv "$base.part" "$base"
}

# A root with the base system and the files that the checks use.
fresh_root() {
    rm -rf $root
    mkdir -p $root
    tar -C $root -xf "$base"
    mkdir -p $root$place/large
    cp -r examples release/use.sh release/stack.py release/small_stack.c tests/c/program.c $root$place
    python3 bench/generate.py --size 10M > $root$place/large/full.mps
    python3 bench/generate.py --size 10M --lp > $root$place/large/thin.lp
    python3 bench/generate.py --size 10M --hostile one-column-random > $root$place/large/one-column.mps
    python3 bench/generate.py --size 10M --hostile tiny-columns > $root$place/large/tiny-columns.mps
}

# Runs a command in the root, with none of the variables of this shell.
in_root() {
    chroot $root /usr/bin/env -i PATH=/usr/sbin:/usr/bin:/sbin:/bin HOME=/root LC_ALL=C.UTF-8 "$@"
}

# All files in the root with their modes, owners and checksums, except the records of dpkg, ldconfig and man.
list() {
    (
        cd $root
        find . -xdev \( -path ./tmp -o -path ./proc -o -path ./sys -o -path ./dev -o -path ./var/log -o -path ./var/cache/man \) -prune -o \
            -printf '%y %#m %U:%G %p %l\n' | sort
        find . -xdev \( -path ./tmp -o -path ./proc -o -path ./sys -o -path ./dev -o -path ./var/log -o -path ./var/cache \
            -o -path './var/lib/dpkg/status*' -o -path './var/lib/dpkg/available*' -o -path './var/lib/dpkg/triggers/*' -o -path ./etc/ld.so.cache \) -prune -o \
            -type f -print0 | sort -z | xargs -0 sha256sum
    )
}

is_as_before() {
    list > build/roots/after
    diff build/roots/before build/roots/after > build/roots/left || die "$1 leaves something, or takes too much away: $(cat build/roots/left)"
}

# The fastest of five starts takes at most a quarter of a second of processor time, which other processes do not change much.
starts_fast() {
    in_root python3 - "$1" <<'PYTHON'
import os
import subprocess
import sys


def processor_seconds():
    """What all processes have taken that were started here and have ended."""
    times = os.times()
    return times.children_user + times.children_system


def start():
    before = processor_seconds()
    subprocess.run([sys.argv[1], "--version"], check=True, stdout=subprocess.DEVNULL)
    return processor_seconds() - before


fastest = min(start() for _ in range(5))
sys.exit(f"{sys.argv[1]} takes {fastest:.2f} seconds to start" if fastest > 0.25 else 0)
PYTHON
}

# lintian, which checks packages by Debian's rules, has no error and no warning.
lints() {
    command -v lintian > /dev/null || die "lintian is missing: apt-get install lintian"
    lintian --allow-root --fail-on error,warning "$package" > build/roots/lint || die "lintian: $(cat build/roots/lint)"
}

check_archive() {
    fresh_root
    list > build/roots/before
    tar -C $root/opt --no-same-owner -xzf "$archive"
    (cd "$root/opt/$name" && sha256sum --check --quiet SHA256SUMS)
    in_root PATH="/opt/$name/bin:/usr/bin:/bin" PKG_CONFIG_PATH="/opt/$name/lib/pkgconfig" LD_LIBRARY_PATH="/opt/$name/lib" \
        sh -c "cd $place && sh use.sh $version /opt/$name/share/mpslp/$wheel"
    in_root sh -c "cd $place && python3 stack.py --program /opt/$name/bin/mpslp examples/*.mps examples/*.lp large/*"
    python3 release/links.py "$root/opt/$name/share/doc/mpslp"
    starts_fast "/opt/$name/bin/mpslp-tools"
    rm -r "$root/opt/$name"
    is_as_before "the archive"
    echo "archive: installed, used and removed"
}

check_package() {
    fresh_root
    list > build/roots/before
    cp "$package" $root$place
    in_root dpkg --install "$place/$(basename "$package")" > build/roots/log 2>&1 || die "dpkg: $(cat build/roots/log)"
    test -z "$(in_root dpkg --verify mpslp)" || die "dpkg --verify finds changed files"
    tar -xzf "$archive" -O "$name/bin/mpslp" | cmp - $root/usr/bin/mpslp
    in_root sh -c "cd $place && sh use.sh $version /usr/share/mpslp/$wheel"
    in_root python3 -c "import mpslp; assert mpslp.__version__ == '$version'; assert mpslp.same('$place/examples/small.mps', '$place/examples/small.lp')"
    python3 release/links.py $root/usr/share/doc/mpslp
    starts_fast mpslp-tools
    in_root dpkg --purge mpslp > build/roots/log 2>&1 || die "dpkg: $(cat build/roots/log)"
    is_as_before "the package"
    echo "Debian package: installed, used and removed"
}

# The program in a root that has nothing else but glibc.
check_bare() {
    bare=build/roots/bare
    rm -rf $bare
    mkdir -p $bare/lib64 $bare/lib/x86_64-linux-gnu
    tar -xzf "$archive" -O "$name/bin/mpslp" > $bare/mpslp
    chmod 755 $bare/mpslp
    cp examples/small.mps $bare
    cp -L $root/lib64/ld-linux-x86-64.so.2 $bare/lib64
    cp -L $root/lib/x86_64-linux-gnu/libc.so.6 $bare/lib/x86_64-linux-gnu
    chroot $bare /mpslp canon mps mps /small.mps | cmp - examples/small.canonical.mps
    echo "program: runs with $(in_root dpkg-query --show libc6 | tr '\t' ' ') and nothing else"
}

make_base
lints
sh release/same_bytes.sh
check_archive
check_package
check_bare
rm -rf $root build/roots/bare
