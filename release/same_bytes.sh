#!/bin/sh
# release/same_bytes.sh [everything]: checks that what is built does not depend on the directory in which it is built.
#
# The files of the commit go to two directories whose paths have different lengths. In each of them the library and the wheel are
# built from the proved object code of this checkout, and have to be the same bytes, also as those in the archive of build/dist/ if
# that is of this commit. With `everything` the program and all crates are proved and built in both from nothing, which takes
# hours, and compared too.
set -eu
cd "$(dirname "$0")/.."
export LC_ALL=C
umask 022
what=${1:-built}
top=build/same-bytes
version=$(cat VERSION)
name=mpslp-$version-linux-x86_64
wheel=$(python3 python/wheel_tag.py --name)
SOURCE_DATE_EPOCH=$(git log -1 --format=%ct)
export SOURCE_DATE_EPOCH

die() {
    echo "$*" >&2
    exit 1
}

test -z "$(git status --porcelain)" || die "the working tree differs from the commit: commit or remove what git status lists"
rm -rf $top

build_in() {
    mkdir -p "$1/build/proved" "$1/crates/mpslp_c/out"
    git -c tar.umask=0022 archive HEAD | tar -xf - -C "$1"
    if test "$what" = everything; then
        (cd "$1" && python3 scripts/prove.py mpslp)
    else
        cp crates/mpslp_c/out/libmpslp_c.a "$1/crates/mpslp_c/out/"
        cp build/proved/mpslp_c "$1/build/proved/"
    fi
    (cd "$1" && sh lib/build.sh && sh python/build.sh) > "$top/log" 2>&1 || die "$1: $(tail -n 5 "$top/log")"
}

one=$top/one
other=$top/another/directory
build_in $one
build_in $other
files="build/libmpslp.a build/libmpslp.so.0 build/$wheel"
test "$what" != everything || files="$files crates/mpslp/out/mpslp"
for file in $files; do
    cmp "$one/$file" "$other/$file" || die "$file depends on the directory in which it is built"
done
if grep -qs "^commit: *$(git rev-parse HEAD)$" build/dist/$name.record.txt; then
    tar -xzf build/dist/$name.tar.gz -O "$name/share/mpslp/$wheel" | cmp - "$one/build/$wheel" || die "the archive has another wheel"
    tar -xzf build/dist/$name.tar.gz -O "$name/lib/libmpslp.a" | cmp - "$one/build/libmpslp.a" || die "the archive has another library"
fi
rm -rf $top
echo "the same bytes from two directories: $files"
