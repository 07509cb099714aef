#!/bin/sh
# python/environment.sh: installs the wheel of build/ into an environment of its own, build/python, without a network. It needs
# Debian's python3-venv beside what python/build.sh needs; PYTHON is another python3 that has these.
set -eu
cd "$(dirname "$0")/.."
python=${PYTHON:-/usr/bin/python3}
rm -rf build/python
"$python" -m venv --without-pip --system-site-packages build/python
"$python" -m pip --python build/python/bin/python install --quiet --no-index --no-deps build/mpslp-*.whl
