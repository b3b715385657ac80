# The library for C and the command hayro-jbig2: builds, installs (PREFIX=.. DESTDIR=..) or removes them. check runs tools/test.
# A relative DESTDIR is below this folder.
all install uninstall clean:
	$(MAKE) -C bindings/c $@ $(if $(filter-out /%,$(firstword $(DESTDIR))),DESTDIR="$(CURDIR)/$(DESTDIR)")
check:
	tools/test
.PHONY: all install uninstall clean check
