# Kochipurn's line driver over a library that is proved and compiled already: `make` builds the programs into
# target/driver, `make install` installs them. RELEASE says what this is; gcc and make are all that is needed.
CC11 = gcc -std=c11 -O2 -Iinclude
LIB  = lib/libmop.a

include driver/rules.mk

DOCUMENTS += RELEASE

# What the README tells of besides needs the source: its crates and tests are not here.
AT_SOURCE = test run explain frames lib examples compare compare-rehearsal bench trusted trusted-list header layout \
            guards sanitize lint fuzz driver-sanitized driver-test line-bench simh dist

.PHONY: $(AT_SOURCE)
$(AT_SOURCE):
	@echo "make: this is a release: 'make $@' needs the source at commit $$(sed -n 's/^commit: //p' RELEASE) (RELEASE)" >&2; exit 2
