#!/bin/sh
# python/check.sh: installs the wheel of build/ into an environment of its own (python/environment.sh), and runs the tests there.
set -eu
cd "$(dirname "$0")/.."
sh python/environment.sh
environment=$PWD/build/python
cd python
export PYTHONDONTWRITEBYTECODE=1
"$environment/bin/python" tests/run.py
if "$environment/bin/python" -c "import mypy" 2> /dev/null; then
    "$environment/bin/python" -m mypy --cache-dir=/dev/null src tests/typed.py
    (cd "$environment" && bin/python -m mypy.stubtest mpslp._mpslp)
else
    echo "skipped: types (mypy is missing)"
fi
"$environment/bin/python" ../scripts/lint.py .
