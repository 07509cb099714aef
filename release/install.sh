#!/bin/sh
# release/install.sh PART..: installs what is built, by parts, or removes it again.
#
#     program      the program, its man page and its completions, also those of mpslp-tools, which the wheel has
#     library      the library for C, its header and its pkg-config file
#     documents    the documents and the examples
#     uninstall    removes everything that these three install
#
# PREFIX (/usr/local) and LIBDIR (lib in PREFIX) say where. DESTDIR is prefixed to both and appears in no installed file.
# PC_PREFIX is the prefix in the pkg-config file if that is another one.
set -eu
cd "$(dirname "$0")/.."

prefix=$(realpath -ms -- "${PREFIX:-/usr/local}")
libdir=$(realpath -ms -- "${LIBDIR:-$prefix/lib}")
root=${DESTDIR:+$(realpath -ms -- "$DESTDIR")}
docdir=$prefix/share/doc/mpslp

# Each file that is copied: its part, its mode, its source and its place.
files() {
    cat <<TABLE
program 755 crates/mpslp/out/mpslp $prefix/bin/mpslp
program 644 docs/mpslp.1 $prefix/share/man/man1/mpslp.1
program 644 docs/mpslp-tools.1 $prefix/share/man/man1/mpslp-tools.1
program 644 completions/mpslp.bash $prefix/share/bash-completion/completions/mpslp
program 644 completions/mpslp-tools.bash $prefix/share/bash-completion/completions/mpslp-tools
program 644 completions/_mpslp $prefix/share/zsh/site-functions/_mpslp
program 644 completions/_mpslp-tools $prefix/share/zsh/site-functions/_mpslp-tools
program 644 completions/mpslp.fish $prefix/share/fish/vendor_completions.d/mpslp.fish
program 644 completions/mpslp-tools.fish $prefix/share/fish/vendor_completions.d/mpslp-tools.fish
library 644 include/mpslp.h $prefix/include/mpslp.h
library 644 build/libmpslp.a $libdir/libmpslp.a
library 644 build/libmpslp.so.0 $libdir/libmpslp.so.0
TABLE
    for document in README.md CHANGELOG.md CONTRIBUTING.md docs/*.md docs/*.tsv python/README.md examples/* $(linked); do
        echo "documents 644 $document $docdir/$document"
    done
}

# The files outside docs/ that the documents link to: the definitions, a reader to check results with, and lists.
linked() {
    grep -hoE '\]\((\.\./)?(crates|tests|vectors)/[^)#]+' README.md docs/*.md python/README.md | sed -E 's/.*\((\.\.\/)?//' | sort -u
}

# The two files of the library that are made where it is installed.
link=$libdir/libmpslp.so
package=$libdir/pkgconfig/mpslp.pc

# A text, escaped as a replacement of sed.
literally() {
    printf '%s' "$1" | sed 's/[&|\]/\\&/g'
}

# The pkg-config file. A library within the prefix moves with it.
print_package() {
    case $libdir in
    "$prefix"/*) within="\${prefix}${libdir#"$prefix"}" ;;
    *) within=$libdir ;;
    esac
    sed -e "s|@PREFIX@|$(literally "${PC_PREFIX:-$prefix}")|" -e "s|@LIBDIR@|$(literally "$within")|" \
        -e "s|@VERSION@|$(cat VERSION)|" lib/mpslp.pc.in
}

copy() {
    files | while read -r part mode source place; do
        test "$part" != "$1" || install -D -m "$mode" -- "$source" "$root$place"
    done
}

install_library() {
    copy library
    ln -sf libmpslp.so.0 "$root$link"
    install -d -- "$root${package%/*}"
    print_package > "$root$package"
    chmod 644 -- "$root$package"
}

# Removes the directories that only mpslp or a few others use, if nothing is left in them.
remove_directories() {
    for directory in share/doc/mpslp share/man/man1 share/bash-completion/completions share/bash-completion \
        share/zsh/site-functions share/zsh share/fish/vendor_completions.d share/fish; do
        rmdir --ignore-fail-on-non-empty -- "$root$prefix/$directory" 2> /dev/null || true
    done
    rmdir --ignore-fail-on-non-empty -- "$root$libdir/pkgconfig" 2> /dev/null || true
}

uninstall() {
    files | while read -r _ _ _ place; do
        rm -f -- "$root$place"
    done
    rm -f -- "$root$link" "$root$package"
    rm -rf -- "$root$docdir"
    remove_directories
}

for part in "$@"; do
    case $part in
    program | documents) copy "$part" ;;
    library) install_library ;;
    uninstall) uninstall ;;
    *)
        echo "$part is no part: program, library, documents or uninstall" >&2
        exit 3
        ;;
    esac
done
