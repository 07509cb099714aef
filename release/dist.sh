#!/bin/sh
# release/dist.sh: packs the program and the library that are built, with the wheel that is made of the library, as an
# archive and as a Debian package, and writes a record of what they were built from. All three go to build/dist/, or to DIST.
#
# One commit gives the same bytes in every clone: times are those of the commit, names are sorted, owners and modes are
# fixed, and compressed files have neither name nor time.
#
# It needs git, binutils, dpkg-deb, and what python/build.sh needs.
set -eu
cd "$(dirname "$0")/.."
export LC_ALL=C TZ=UTC0
umask 022

die() {
    echo "$*" >&2
    exit 1
}

test "$(uname -sm)" = "Linux x86_64" || die "releases are for Linux on x86-64 only"
test -z "$(git status --porcelain)" || die "the working tree differs from the commit, which the record names: commit or remove what git status lists"
version=$(sh release/version.sh crates/mpslp/out/mpslp)
commit=$(git rev-parse HEAD)
SOURCE_DATE_EPOCH=$(git log -1 --format=%ct)
export SOURCE_DATE_EPOCH

dist=${DIST:-build/dist}
name=mpslp-$version-linux-x86_64
archive=$name.tar.gz
package=mpslp_${version}_amd64.deb
maintainer="mpslp maintainers <maintainers@mpslp.invalid>"
wheel=$(python3 python/wheel_tag.py --name)
program=crates/mpslp/out/mpslp
library=build/libmpslp.so.0
rm -rf "$dist"
mkdir -p "$dist/work"
work=$(realpath "$dist/work")

# The wheel is made of the commit's files, whose modes go into it.
build_wheel() {
    mkdir -p "$work/source/build"
    git -c tar.umask=0022 archive HEAD VERSION include python docs/errors.tsv docs/warnings.tsv docs/portable.tsv docs/adapt.tsv | tar -xf - -C "$work/source"
    cp build/libmpslp.a "$work/source/build/"
    sh "$work/source/python/build.sh" > /dev/null
    test -f "$work/source/build/$wheel" || die "the wheel has another name than $wheel"
}

# The newest version of glibc that programs and libraries require.
glibc_of() {
    objdump -T "$@" | sed -n 's/.*(GLIBC_\([0-9.]*\)).*/\1/p' | sort -uV | tail -n 1
}

unpack_wheel() {
    mkdir "$work/wheel"
    "${PYTHON:-/usr/bin/python3}" -m zipfile -e "$work/source/build/$wheel" "$work/wheel"
    strip_files "$work/wheel"/mpslp/*.so
}

# The command of the wheel, which runs without an installation by pip. Without bytecode a start takes half as long again;
# that of the Python here is shipped, and another one compiles the package at each start.
install_tools() {
    install -D -m 755 release/mpslp-tools "$1/bin/mpslp-tools"
    mkdir -p "$1/lib/mpslp/python"
    cp -R "$work/wheel/mpslp" "$work/wheel/mpslp_tools.py" "$1/lib/mpslp/python/"
    (cd "$1/lib/mpslp/python" && "${PYTHON:-/usr/bin/python3}" -m compileall -q --invalidation-mode unchecked-hash mpslp mpslp_tools.py)
}

# The package for Debian's Python, whose bytecode py3compile makes when it is installed.
install_python() {
    mkdir -p "$1/lib/python3/dist-packages"
    cp -R "$work/wheel/mpslp" "$work/wheel/mpslp_tools.py" "$work/wheel/mpslp-$version.dist-info" "$1/lib/python3/dist-packages/"
    rm "$1/lib/python3/dist-packages/mpslp-$version.dist-info/RECORD"
    install -D -m 755 release/mpslp-tools "$1/bin/mpslp-tools"
    sed -i -e '1s|.*|#!/usr/bin/python3|' -e 's|, by the Python package in lib/mpslp/python of the same prefix||' \
        -e '/^from os/d' -e '/^sys\.dont_write/d' -e '/^sys\.path/d' "$1/bin/mpslp-tools"
}

# Removes the symbols of debugging and of the linker. The section .comment stays: it has the logic of the kit.
strip_files() {
    strip --strip-unneeded "$@"
}

changelog() {
    cat <<CHANGELOG
mpslp ($version) unstable; urgency=medium

  * /usr/share/doc/mpslp/CHANGELOG.md lists what each version brings.

 -- $maintainer  $(date -u -R -d "@$SOURCE_DATE_EPOCH")
CHANGELOG
}

# The checksums of all files below a directory.
sums() {
    (cd "$1" && find . -type f -printf '%P\0' | sort -z | xargs -0 sha256sum)
}

set_times() {
    find "$1" -exec touch -h -d "@$SOURCE_DATE_EPOCH" {} +
}

# A directory that works wherever it is unpacked.
stage_archive() {
    PREFIX=$work/$name PC_PREFIX='${pcfiledir}/../..' sh release/install.sh program library documents
    strip_files "$work/$name/bin/mpslp" "$work/$name/lib/libmpslp.so.0"
    install -D -m 644 "$work/source/build/$wheel" "$work/$name/share/mpslp/$wheel"
    install_tools "$work/$name"
    install -m 644 release/INSTALL.md "$work/$name/INSTALL.md"
    sums "$work/$name" > "$work/SHA256SUMS"
    mv "$work/SHA256SUMS" "$work/$name/SHA256SUMS"
    set_times "$work/$name"
}

pack_archive() {
    tar --sort=name --owner=0 --group=0 --numeric-owner --mode=u=rwX,go=rX --format=gnu -C "$work" -cf - "$name" | gzip -9n > "$dist/$archive"
}

# Kilobytes as Debian counts them: the size of each file is rounded up.
installed_size() {
    find "$1" -type f -printf '%s\n' | awk '{ sum += int(($1 + 1023) / 1024) } END { print sum }'
}

control() {
    cat <<CONTROL
Package: mpslp
Version: $version
Architecture: amd64
Maintainer: $maintainer
Installed-Size: $1
Depends: libc6 (>= $glibc), python3 (>= 3.10)
Suggests: gcc, pkgconf, python3-igraph, python3-venv, python3-zstandard
Section: math
Priority: optional
Description: one canonical text for each linear or mixed-integer model
 mpslp reads model files in the formats MPS and LP, and writes one canonical
 text for each model, with exact decimals. It converts between both formats and
 compares models. An ambiguous file is rejected with its line and the reason.
 .
 The package has the program, the command mpslp-tools for many files, the
 Python module mpslp, the C library with its header, and in /usr/share/mpslp
 the wheel of the Python package for virtual environments.
CONTROL
}

# The files of Debian's packages: compressed manual pages, completions of zsh among those of other packages.
stage_package() {
    root=$work/debian
    DESTDIR=$root PREFIX=/usr LIBDIR=/usr/lib/x86_64-linux-gnu sh release/install.sh program library documents
    strip_files "$root/usr/bin/mpslp" "$root/usr/lib/x86_64-linux-gnu/libmpslp.so.0"
    gzip -9n "$root/usr/share/man/man1/mpslp.1" "$root/usr/share/man/man1/mpslp-tools.1"
    mv "$root/usr/share/zsh/site-functions" "$root/usr/share/zsh/vendor-completions"
    install -D -m 644 "$work/source/build/$wheel" "$root/usr/share/mpslp/$wheel"
    install_python "$root/usr"
    install -m 644 release/copyright "$root/usr/share/doc/mpslp/copyright"
    install -D -m 644 release/lintian-overrides "$root/usr/share/lintian/overrides/mpslp"
    changelog | gzip -9n > "$root/usr/share/doc/mpslp/changelog.gz"
    size=$(installed_size "$root")
    mkdir "$root/DEBIAN"
    control "$size" > "$root/DEBIAN/control"
    echo "libmpslp 0 mpslp (>= $version)" > "$root/DEBIAN/shlibs"
    echo "activate-noawait ldconfig" > "$root/DEBIAN/triggers"
    install -m 755 release/postinst release/prerm "$root/DEBIAN/"
    (cd "$root" && find usr -type f -print0 | sort -z | xargs -0 md5sum) > "$work/md5sums"
    mv "$work/md5sums" "$root/DEBIAN/md5sums"
    set_times "$root"
}

pack_package() {
    dpkg-deb --root-owner-group -Zgzip -z9 --build "$work/debian" "$dist/$package" > /dev/null
}

# The first line of a tool's version text.
tool() {
    "$@" 2>&1 | head -n 1
}

python_tools() {
    "${PYTHON:-/usr/bin/python3}" -c '
import importlib.metadata, platform
print("Python", platform.python_version(), *(f"{name} {importlib.metadata.version(name)}" for name in ("pip", "setuptools", "wheel")))'
}

# The kit's line. A program contains the checksum of the logic with which it was proved, also as it is packed.
kit() {
    strip_files -o "$work/stripped" "$program"
    for each in "$program" "$work/stripped"; do
        grep -aqF "logic=$(rt version | sed 's/.* logic //')" "$each" || die "another kit built $each than $(rt version)"
    done
    rm "$work/stripped"
    rt version
}

record() {
    cat <<RECORD
mpslp $version for Linux on x86-64

commit:        $commit
commit time:   $SOURCE_DATE_EPOCH seconds after 1970, which is the time of every file
kit:           $kit
compiler:      $(tool "$(dirname "$(rt doc)")/toolchain/bin/clang" --version), of the kit: the program and libmpslp.a
C compiler:    $(tool "${CC:-cc}" --version): libmpslp.so.0 and the wheel
linker:        $(tool ld --version)
wheel by:      $(python_tools)
packed by:     $(tool tar --version), $(tool gzip --version), $(tool dpkg-deb --version)
glibc:         $glibc or later: the program $(glibc_of $program), libmpslp.so.0 $(glibc_of $library), the wheel $(glibc_of "$work"/wheel/mpslp/*.so)

Sums (SHA-256) of the packages:

$(cd "$dist" && sha256sum "$archive" "$package")

Sums of the files in $archive:

$(sums "$work/$name")

Sums of the files in $package:

$(sums "$work/debian")
RECORD
}

build_wheel
unpack_wheel
kit=$(kit)
glibc=$(glibc_of "$program" "$library" "$work"/wheel/mpslp/*.so)
stage_archive
pack_archive
stage_package
pack_package
record > "$dist/$name.record.txt"
rm -rf "$work"
cd "$dist"
ls -l "$archive" "$package" "$name.record.txt"
