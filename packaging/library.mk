# The library as it is handed out, and where it is installed. Included by the Makefile at the top.
ROOT = .
BUILT = build
include packaging/install.mk

# the kit's folder is asked for only where something is linked
KIT = $(dir $(shell rt doc))

# whether both are there. What is made is installed as it is, so it can be made as one user and installed as another
MADE := $(and $(wildcard build/libodht.a),$(wildcard build/$(SHARED)))
# where neither is there, and no kit to make them, cargo makes the library of erased source
ifneq ($(or $(MADE),$(shell command -v rt 2> /dev/null)),)
lib: exports_are_current build/libodht.a build/$(SHARED)

install: $(if $(MADE),,lib)
	$(INSTALL_ALL)
else
lib:
	@$(NEEDS_KIT)

install:
	@echo 'there is no rt here, the command of the kit of Rattle:' \
	  'cargo makes the library of erased source (rust/c/README.md)'
	@$(MAKE) --no-print-directory -C rust/c install \
	  $(if $(DESTDIR),'DESTDIR=$(if $(filter /%,$(DESTDIR)),,$(CURDIR)/)$(DESTDIR)')
endif

build/libodht.a: $(LIBRARY) packaging/merge.sh
	@$(NEEDS_KIT)
	@mkdir -p build
	@sh packaging/merge.sh $@ $(LIBRARY) $(KIT)c/liblibc_c.a

# linked with the C library alone, and what the compiler has for its own code: with a name that is not found, or code
# that would have to be changed where it is loaded, it is refused
build/$(SHARED): build/libodht.a packaging/odht.map
	@$(CC) -shared -nodefaultlibs -Wl,-soname,$(SONAME) -Wl,--version-script=packaging/odht.map \
	  -Wl,-z,defs -Wl,-z,text -Wl,-z,relro -Wl,-z,noexecstack \
	  -Wl,--whole-archive $< -Wl,--no-whole-archive -lc -lgcc -o $@
	@$(NAME_SHARED)

exports_are_current:
	@python3 tools/generate --check errors shapes
	@sh crates/odht_c/exports/statuses.sh > /dev/null
