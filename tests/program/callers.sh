#!/bin/sh
# tests/program/callers.sh: builds the library for C and the Python package from what rt ci has proved for the gate, and tests both and
# their installation.
# Their requirements, apart from the kit, are in docs/C.md and python/README.md; if one is missing, they are reported and skipped.
set -eu
cd "$(dirname "$0")/../.."
for tool in gcc g++ valgrind; do
    command -v $tool > /dev/null || { echo "skipped: the library for C and the Python package ($tool is missing)"; exit 0; }
done
sh lib/build.sh gate
sh tests/c/check.sh
if command -v pkg-config > /dev/null; then
    sh release/install_check.sh
else
    echo "skipped: install and uninstall (pkg-config is missing)"
fi
python=${PYTHON:-/usr/bin/python3}
"$python" -c 'import setuptools, pip, sysconfig, venv, wheel; open(sysconfig.get_path("include") + "/Python.h").close()' 2> /dev/null ||
    { echo "skipped: the Python package ($python has no pip, setuptools, venv, wheel or Python.h)"; exit 0; }
sh python/build.sh
sh python/check.sh
