# A release: the archive and the Debian package, and what users may rely on from one to the next.

.PHONY: dist dist-check install-check try-digests

# Compares the canonical texts of vectors/ and examples/ with their frozen digests.
try-digests:
	python3 tests/program/digests.py

# Builds the archive and the Debian package in build/dist/, with a record of what they were built from.
dist:
	$(MAKE) --no-print-directory
	$(MAKE) --no-print-directory lib
	sh release/dist.sh

# Installs both in an empty Debian, uses them and removes them again.
dist-check:
	sh release/check.sh

# Tries install, install-lib and uninstall in a scratch directory; program and library have to be built.
install-check:
	sh release/install_check.sh
