#!/bin/sh
# python/build.sh: puts the wheel of the Python package into build/, of build/libmpslp.a. It needs Debian's python3-dev,
# python3-pip, python3-setuptools and python3-wheel, and no network. PYTHON is another python3 that has them.
#
# The wheel is for every Linux that python/wheel_tag.py names, or, if it needs more than that, for this machine. It has
# no debug information, which would contain the path of the checkout, and its times are those of the commit, or
# SOURCE_DATE_EPOCH.
set -eu
cd "$(dirname "$0")/.."
python=${PYTHON:-/usr/bin/python3}
SOURCE_DATE_EPOCH=${SOURCE_DATE_EPOCH:-$(git log -1 --format=%ct 2> /dev/null || true)}
test -z "$SOURCE_DATE_EPOCH" || export SOURCE_DATE_EPOCH
export CFLAGS="${CFLAGS:-} -g0"

make_wheel() {
    rm -rf build/mpslp-*.whl python/build python/src/mpslp.egg-info
    MPSLP_PLATFORM=$1 "$python" -m pip wheel --quiet --no-build-isolation --no-index --no-deps \
        --wheel-dir build ./python
    rm -rf python/build python/src/mpslp.egg-info
}

make_wheel "$("$python" python/wheel_tag.py --platform)"
if ! "$python" python/wheel_tag.py build/mpslp-*.whl; then
    echo "so the wheel is for this machine only" >&2
    make_wheel linux_x86_64
fi
ls build/mpslp-*.whl
