#!/bin/sh
# release/use.sh VERSION WHEEL: uses an installed mpslp: the program, man pages, completions, the library from C, the wheel from
# Python, and mpslp-tools. check.sh runs this within the root in which it was installed, in a directory with the files that are
# used here.
set -eu
version=$1
wheel=$2

die() {
    echo "$*" >&2
    exit 1
}

test "$(mpslp --version)" = "mpslp $version" || die "mpslp --version prints $(mpslp --version)"
mpslp canon mps mps examples/small.mps | cmp - examples/small.canonical.mps
mpslp canon mps lp examples/small.mps | cmp - examples/small.canonical.lp
for command in mpslp mpslp-tools; do
    page=$(man -w $command)
    test -s "$page" || die "man -w $command prints $page"
    man --warnings $command > page.txt 2> said
    test ! -s said || die "man $command: $(cat said)"
    grep -q '^EXIT STATUS' page.txt || die "man $command shows no page"
done

# The base system has only bash. The directory of zsh is another one in Debian's packages.
share=$(dirname "$(dirname "$(command -v mpslp)")")/share
for command in mpslp mpslp-tools; do
    for completion in "$share/zsh"/*/"_$command" "$share/fish/vendor_completions.d/$command.fish"; do
        test -s "$completion" || die "$completion is missing"
    done
    # shellcheck disable=SC2016 # the variables are those of bash
    bash -c '. "$1"; complete -p "$2"' bash "$share/bash-completion/completions/$command" $command > said ||
        die "the completion of $command for bash is of another command"
done

test "$(pkg-config --modversion mpslp)" = "$version" || die "pkg-config --modversion prints $(pkg-config --modversion mpslp)"
flags=$(pkg-config --cflags mpslp)
shared=$(pkg-config --libs mpslp)
static=$(echo "$shared" | sed 's/-lmpslp/-l:libmpslp.a/')
# shellcheck disable=SC2086 # flags and libraries are several words each
{
    gcc -std=c99 $flags -o shared program.c $shared
    gcc -std=c99 $flags -o static program.c $static
    gcc -std=c99 $flags -Dmain=run_words -c -o words.o program.c
    gcc -std=c99 -o small-shared small_stack.c words.o $shared -pthread
    gcc -std=c99 -o small-static small_stack.c words.o $static -pthread
}
for program in shared small-shared; do
    ldd ./$program | grep -q 'libmpslp\.so\.0 => /' || die "$program does not use the shared library"
done
for program in static small-static; do
    ! ldd ./$program | grep -q mpslp || die "$program uses the shared library"
done
for program in shared static small-shared small-static; do
    for file in examples/*.mps examples/*.lp large/full.mps large/thin.lp; do
        form=${file##*.}
        for to in mps lp; do
            mpslp canon "$form" $to "$file" > wanted
            ./$program canon "$form" $to "$file" | cmp - wanted
        done
        mpslp show "$form" "$file" > wanted
        ./$program show "$form" "$file" | cmp - wanted
        ./$program same "$form" "$file" "$form" "$file" > said
        grep -qx same said
        ! ./$program is "$form" examples/small.lp 2> said || die "examples/small.lp is not canonical"
    done
done
./small-static is mps examples/small.canonical.mps

python3 -m venv planning
planning/bin/pip install --quiet --no-index --disable-pip-version-check "$wheel"
planning/bin/python - "$version" <<'PYTHON'
import importlib.metadata
import sys
from pathlib import Path

import mpslp

assert importlib.metadata.version("mpslp") == sys.argv[1]
canonical = Path("examples/small.canonical.mps").read_bytes()
assert mpslp.canonical("examples/small.mps") == canonical
assert mpslp.is_canonical("examples/small.canonical.mps")
assert mpslp.same("examples/small.mps", "examples/small.lp")
assert mpslp.load("examples/small.mps") == mpslp.load("examples/small.lp")
PYTHON

# A model with a name that LP does not have, and three other files of it.
cat > brackets.mps <<'MODEL'
NAME
ROWS
 N  COST
 L  LIM
COLUMNS
    x[1,2]  COST  1  LIM  1
RHS
    RHS  LIM  4
ENDATA
MODEL
sed 's/1  LIM /1  LIMM /' brackets.mps > misspelt.mps
sed 's/^ROWS/rows/' brackets.mps > lower-case.mps
sed 1d brackets.mps > unnamed.mps

# A command that has to exit with a status, and what it prints goes to the file said.
exits_with() {
    wanted=$1
    shift
    status=0
    "$@" > said 2>&1 || status=$?
    test "$status" = "$wanted" || die "$* exits with $status: $(cat said)"
}

says() {
    grep -qF -- "$1" said || die "not said: $1, but: $(cat said)"
}

# Each command that has modules or a table of its own.
for tools in mpslp-tools planning/bin/mpslp-tools; do
    test "$($tools --version)" = "mpslp $version" || die "$tools --version prints $($tools --version)"
    test "$($tools diff examples/small.mps examples/small.lp)" = same || die "$tools diff finds a difference"
    exits_with 1 $tools check examples/small.canonical.lp examples/small.lp
    test "$(cat said)" = examples/small.lp || die "$tools check finds other files: $(cat said)"
    exits_with 0 $tools survey -j 2 examples
    says ' accepted'
    exits_with 0 $tools explain DuplicateEntry
    says 'Add the coefficients'
    for kind in no-name upper-zero letter-case; do
        exits_with 0 $tools explain $kind
    done
    exits_with 2 $tools canon misspelt.mps
    says 'the nearest row is LIM'
    exits_with 0 $tools canon unnamed.mps
    says no-name
    exits_with 1 $tools check --portable examples/small.lp
    says joined-tokens
    exits_with 1 $tools adapt -o adapted.mps lower-case.mps
    says 'letter-case: rows -> ROWS'
    $tools same adapted.mps brackets.mps > said
    $tools canon -t lp --rename brackets.mps > renamed.lp
    $tools canon -t lp renamed.lp | cmp - renamed.lp
    $tools canon --for lp_solve brackets.mps > solver.mps
    $tools same solver.mps brackets.mps > said
    $tools fmt examples/small.lp > formatted.lp
    $tools fmt --check formatted.lp
    $tools same formatted.lp examples/small.lp > said
    $tools report -o page.html examples/small.mps
    test -s page.html || die "$tools report writes no page"
    $tools report --out-dir pages examples/small.mps examples/semi.mps
    grep -q 'href="./semi.mps.html"' pages/index.html || die "$tools report writes no index"
    sed 's/<= 4/<= 5/' examples/small.canonical.lp > ours.lp
    sed 's/>= 1/>= 2/' examples/small.canonical.lp > theirs.lp
    $tools merge -o merged.lp examples/small.canonical.lp ours.lp theirs.lp
    sed 's/<= 4/<= 5/; s/>= 1/>= 2/' examples/small.canonical.lp | cmp - merged.lp
    sed 's/<= 4/<= 6/' examples/small.canonical.lp > other.lp
    exits_with 1 $tools merge --json examples/small.canonical.lp ours.lp other.lp
    says '"verdict": "conflicts"'
    sed 's/MYG/other/; s/LIM1/another/' examples/small.canonical.lp > names.lp
    exits_with 0 $tools same --any-names --map names.json names.lp examples/small.mps
    says 'same but for names'
    $tools canon --names-back --map names.json examples/small.mps > back.mps
    $tools same back.mps names.lp > said
    test "$($tools digest --any-names - -f lp < names.lp | cut -c 1-64)" = "$($tools digest --any-names examples/small.mps | cut -c 1-64)" ||
        die "$tools digest --any-names depends on names"
done
