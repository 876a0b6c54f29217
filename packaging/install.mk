# Where the library is installed, and what goes there: for library.mk here, and for rust/c. ROOT is the folder of the
# repository, BUILT that in which libodht.a and libodht.so.VERSION are.
VERSION := $(shell cat $(ROOT)/packaging/VERSION)
MAJOR = $(firstword $(subst ., ,$(VERSION)))
SONAME = libodht.so.$(MAJOR)
SHARED = libodht.so.$(VERSION)

PREFIX ?= /usr/local
LIBDIR ?= $(PREFIX)/lib
INCLUDEDIR ?= $(PREFIX)/include
DESTDIR ?=

# below ${prefix} where they are, so that the installed folder can be moved
below_prefix = $(patsubst $(PREFIX)/%,$${prefix}/%,$(1))
FILL = sed -e 's|@PREFIX@|$(PREFIX)|; s|@LIBDIR@|$(call below_prefix,$(LIBDIR))|' \
  -e 's|@INCLUDEDIR@|$(call below_prefix,$(INCLUDEDIR))|; s|@VERSION@|$(VERSION)|; s|@MAJOR@|$(MAJOR)|' \
  -e "s|@SONAME@|$(SONAME)|; s|@HEADERS_FROM_LIBRARIES@|$$(realpath -m --relative-to='$(LIBDIR)' '$(INCLUDEDIR)')|"

HEADERS = odht.h odht.hpp
INTO = $(DESTDIR)$(LIBDIR)
INSTALLED = $(HEADERS:%=$(DESTDIR)$(INCLUDEDIR)/%) $(INTO)/libodht.a $(INTO)/$(SHARED) $(INTO)/$(SONAME) \
  $(INTO)/libodht.so $(INTO)/pkgconfig/odht.pc $(INTO)/cmake/odht/odht-config.cmake \
  $(INTO)/cmake/odht/odht-config-version.cmake

# beside the shared library its two other names. They are copies here, and links only where it is installed: the gate
# takes no link in the folder of the repository
NAME_SHARED = for name in $(SONAME) libodht.so; do \
  rm -f "$(BUILT)/$$name" && cp '$(BUILT)/$(SHARED)' "$(BUILT)/$$name" || exit 1; \
done

define INSTALL_ALL
@install -d '$(DESTDIR)$(INCLUDEDIR)' '$(INTO)/pkgconfig' '$(INTO)/cmake/odht'
@install -m 644 $(HEADERS:%=$(ROOT)/include/%) '$(DESTDIR)$(INCLUDEDIR)'
@install -m 644 $(BUILT)/libodht.a '$(INTO)/libodht.a'
@install -m 755 $(BUILT)/$(SHARED) '$(INTO)/$(SHARED)'
@ln -sf $(SHARED) '$(INTO)/$(SONAME)'
@ln -sf $(SONAME) '$(INTO)/libodht.so'
@$(FILL) $(ROOT)/packaging/odht.pc.in > '$(INTO)/pkgconfig/odht.pc'
@for file in odht-config odht-config-version; do \
  $(FILL) $(ROOT)/packaging/$$file.cmake.in > "$(INTO)/cmake/odht/$$file.cmake" || exit 1; \
done
@chmod 644 '$(INTO)/pkgconfig/odht.pc' '$(INTO)/cmake/odht/'*.cmake
$(if $(DESTDIR),,@echo "libodht is in $(LIBDIR). Programs find it after ldconfig, or by -Wl,-rpath,$(LIBDIR)")
endef

uninstall:
	@rm -f $(foreach file,$(INSTALLED),'$(file)')
	@if [ -d '$(INTO)/cmake/odht' ]; then rmdir '$(INTO)/cmake/odht'; fi
