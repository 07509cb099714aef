#!/bin/sh
# release/version.sh [PROGRAM]: prints the version, which is in the file VERSION, after a check that the files that cannot
# read it there have the same; and that PROGRAM prints it.
set -eu
cd "$(dirname "$0")/.."
version=$(cat VERSION)
wrong=0

differs() {
    echo "VERSION is $version: $1" >&2
    wrong=1
}

has() {
    grep -qF -- "$2" "$1" || differs "$1 should have: $2"
}

has crates/mpslp_command/src/usage.rt "const VERSION: &str = \"$version\";"
has docs/mpslp.1 "\"mpslp $version\""
has docs/mpslp-tools.1 "\"mpslp $version\""
has CHANGELOG.md "## $version"
has include/mpslp.h "#define MPSLP_VERSION_MAJOR $(echo "$version" | cut -d. -f1)"
has include/mpslp.h "#define MPSLP_VERSION_MINOR $(echo "$version" | cut -d. -f2)"
has include/mpslp.h "#define MPSLP_VERSION_PATCH $(echo "$version" | cut -d. -f3)"
if test $# -gt 0; then
    printed=$("$1" --version)
    test "$printed" = "mpslp $version" || differs "$1 --version prints: $printed"
fi
test $wrong = 0
echo "$version"
