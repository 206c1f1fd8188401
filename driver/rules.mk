# How the line driver is built and installed: part of the Makefile here and of the one in a release. Both say what
# the library is (LIB), how to compile (CC11), and where things go: PREFIX, and DESTDIR before it.
DRIVER    = target/driver
DRIVER_CC = $(CC11) -D_GNU_SOURCE -Idriver -Itarget
MODULES   = $(sort $(basename $(notdir $(wildcard driver/*.c))))
PROGRAMS  = $(filter mop%,$(MODULES))
PARTS     = $(filter-out mop%,$(MODULES))
PREFIX    = /usr/local

.PHONY: driver man install always

# With the pages, so that `sudo make install` behind it makes nothing.
driver: $(PROGRAMS:%=$(DRIVER)/%) man

# The commit and its date, written anew only where they are others. Here and below a file is replaced and not written
# into: it may be root's, of an earlier `sudo make install`.
target/version.inc: always
	@mkdir -p target
	@rm -f $@.new
	@driver/version >$@.new
	@if cmp -s $@.new $@; then rm $@.new; else mv -f $@.new $@; fi

$(DRIVER)/manual.o: target/version.inc

$(DRIVER)/%.o: driver/%.c $(wildcard driver/*.h) include/mop.h
	@mkdir -p $(DRIVER)
	@$(DRIVER_CC) -c -o $@ $<

$(PROGRAMS:%=$(DRIVER)/%): %: %.o $(PARTS:%=$(DRIVER)/%.o) $(LIB)
	@gcc -o $@ $^

# The pages for man: each program's own text.
man: $(PROGRAMS:%=$(DRIVER)/%.1)

$(DRIVER)/%.1: $(DRIVER)/%
	@rm -f $@.new
	@$< --man >$@.new
	@mv -f $@.new $@

DOCUMENTS = README.md
INTO      = $(DESTDIR)$(PREFIX)
DOC       = $(INTO)/share/doc/kochipurn

install: driver $(LIB)
	install -d "$(INTO)/bin" "$(INTO)/lib" "$(INTO)/include" "$(INTO)/share/man/man1" "$(DOC)/docs/pictures"
	install -m 755 $(PROGRAMS:%=$(DRIVER)/%) "$(INTO)/bin"
	install -m 644 $(LIB) "$(INTO)/lib"
	install -m 644 include/mop.h "$(INTO)/include"
	install -m 644 $(PROGRAMS:%=$(DRIVER)/%.1) "$(INTO)/share/man/man1"
	install -m 644 $(DOCUMENTS) "$(DOC)"
	install -m 644 $(wildcard docs/*.md) "$(DOC)/docs"
	install -m 644 $(wildcard docs/pictures/*.svg) "$(DOC)/docs/pictures"
