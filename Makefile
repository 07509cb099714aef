# The commands of the README. They need the Rattle kit, whose command is rt.

.PHONY: program run test mutants lib lib-check python python-check page-check bench refused random vectors docs-check solvers dialects

# Proves and builds the program: 15 to 35 minutes the first time, and later what changed.
program:
	@python3 scripts/prove.py mpslp

FILE = examples/small.mps

# Prints the canonical text of FILE in the format TO, or in its own. Runs the proved program if it is built, and else the same
# sources without proof.
run:
	@python3 scripts/run.py '$(FILE)' '$(TO)'

# The merge gate: proves everything, tests the mutants, which are wrong versions that the prover has to reject, and runs tests and
# programs.
test:
	@python3 scripts/gate.py

# Tests the mutants of all crates.
mutants: lib
	python3 scripts/mutants.py

# Builds the library for C, proved: build/libmpslp.a and build/libmpslp.so.0.
lib:
	sh lib/build.sh

# Tests the library from C and C++, beside the program.
lib-check: lib program
	sh tests/c/check.sh

# Builds the wheel of the Python package, in build/, if it is missing or older than the library or a file of the package.
WHEEL = build/$(shell python3 python/wheel_tag.py --name)

python: $(WHEEL)

$(WHEEL): build/libmpslp.so.0 python/build.sh python/wheel_tag.py $(shell find python/src python/extension python/setup.py python/pyproject.toml python/README.md docs/errors.tsv docs/warnings.tsv docs/portable.tsv docs/adapt.tsv -name '__pycache__' -prune -o -type f -print)
	@sh python/build.sh

# Tests the Python package.
python-check: python
	sh python/check.sh

# Measures the pages of reports in Chromium. The merge gate does not: a browser takes 350 MB.
page-check: python
	sh python/environment.sh
	build/python/bin/python python/tests/page_in_browser.py --wrong

# The speed of numbers, of whole programs, and of files made to be slow; the program has to be built.
bench:
	sh bench/numbers.sh
	python3 bench/run.py --sizes 10M,100M
	python3 bench/run.py --sizes 10M,100M --hostile
	python3 bench/growth.py
	python3 bench/growth.py --names 40000 --most 1.2

# Refuses each growth of memory in turn.
refused: program
	python3 scripts/prove.py try_library
	python3 tests/program/refused.py

# Compares the program with a reader that was written only from docs/FORMATS.md and docs/ERRORS.md, on random models in many
# spellings of both formats, and on broken files.
random: program
	python3 tests/program/random_files.py
	python3 tests/program/independent_check.py

# Checks the program on the files of vectors/.
vectors: program
	python3 tests/program/vectors.py

# Tries the commands, files and tables of the documents, and the pairs of examples.
docs-check: program
	python3 tests/documents/docs_check.py

# Feeds canonical texts to the solvers that are installed, as docs/SOLVERS.md says, and compares the optima. Does so with what
# canon --for writes of random models and of vectors/. Compares what glpsol and CoinUtils read from each accepted file with what
# mpslp reads.
solvers: program
	python3 tests/program/solvers.py
	python3 python/tests/solver_texts.py
	python3 tests/program/compare_readers.py

# Tests adapt, warnings and check --portable: their rules, random models in other dialects, and what the installed programs write of
# random models and of published ones.
dialects: program
	python3 python/tests/adapt_rules.py --wrong
	python3 python/tests/portable_rules.py --wrong
	python3 python/tests/warning_rules.py --wrong
	python3 python/tests/portable_programs.py
	python3 python/tests/adapt_random.py
	python3 python/tests/adapt_glued.py
	python3 python/tests/adapt_doubts.py --wrong
	python3 python/tests/adapt_writers.py
	python3 python/tests/adapt_published.py

# install, install-lib, uninstall; dist, dist-check, install-check.
include release/install.mk release/release.mk
