# `make help` prints this list. [kit] marks what needs `rt`, the command of the kit of Rattle (its compiler and prover).
# The others need make, Python and, where they build something, cargo or a C compiler.
#
# Try it
#   make run            runs the script program on examples/first.script, or on SCRIPT=file. With the kit it is built
#                       from the Rattle sources, without proofs; with only cargo, from the plain-Rust sources
#   make test           runs the tests, without proofs. Without the kit it runs the parts that do not need it, and says
#                       which it left out. PARTS='vectors edits' runs some parts. build/logs has what each printed
#   make help           prints this list
#
# Use it from Rust, C or C++
#   make lib            [kit] builds build/libodht.a and build/libodht.so, which need only the C library
#   make install        installs the library, the header and the files for pkg-config and CMake below PREFIX, and below
#                       DESTDIR before it. Without the kit it installs the library that cargo builds (rust/c)
#   make uninstall      removes them
#   make examples       [kit] compiles all examples against an installed copy and compares their output; runs the tests
#                       of the calls for C on it
#
# The program for table files, `odht`
#   make cli            builds it with cargo, from the plain-Rust sources
#   make tool           [kit] builds it with its proofs, and prints its path: half an hour if nothing is proved yet
#   make install-tool   installs it below PREFIX, and below DESTDIR before it, with its manual page and completions:
#                       what `make tool` has built, or else what `make cli` builds
#   make uninstall-tool removes it
#
# See the proof
#   make prove          [kit] the gate (rt ci): every proof from nothing, and the edits that must be rejected. WORD=1
#                       for the gate on a copy that has the word search compiled in
#   make edits          [kit] tries each edit of the gate and of edits/, which must be rejected; NAMES='odht_raw odht'
#                       for those of some crates
#   make build          [kit] builds the script program with its proofs
#   make archive        [kit] builds what `make lib` needs from the libraries that `make prove` has just proved
#
# After a change
#   make generate       generates all files that are committed and not written by hand: from lists/*.txt what is the same
#                       for each shape, error and command; the plain-Rust sources from the proved crates (folders
#                       `generated` in rust); copies of documents; the speeds in README.md from bench/RESULTS.md
#   make rust           only the plain-Rust sources
#
# Measure
#   make bench          [kit] the tables of speeds. QUICK=1 for a short run, ODHT_RUST=folder for the original too,
#                       CHECK=1 only the whole check, WORST=1 also the largest forged table (an hour), ORDER=1 only the
#                       order of inserts, PEERS=1 only other libraries, MARKDOWN=1 for Markdown. With ODHT_RUST, and
#                       without QUICK, CHECK, ORDER and PEERS, it runs bench-crate too
#   make bench-crate    the crate for Rust compared with the original in ODHT_RUST. ITEMS=100000 limits the table,
#                       ALIGNED=1 keeps branches within 32 bytes in all of them
#   make bounds         [kit] loops that show what limits these speeds, with ODHT_RUST=folder
#   make searches       how long searches are in tables of random keys. SLOTS=1048576 limits the table

SCRIPT ?= examples/first.script
PARTS ?=
NAMES ?=
WORD ?=
# lowest first: what the programs use, and over it the calls for C
LIBRARIES = odht_base odht_header odht_raw odht
FOR_C = $(LIBRARIES) odht_calls odht_c
# and the program for table files
FOR_TOOL = $(LIBRARIES) odht_tool_core odht_tool_tables odht_tool_reads odht_tool_writes
LIBRARY ?= crates/odht_c/out/libodht_c.a
QUICK ?=
CHECK ?=
WORST ?=
ORDER ?=
PEERS ?=
MARKDOWN ?=
ODHT_RUST ?=
ITEMS ?=
ALIGNED ?=
SLOTS ?=
# the first line of each recipe that needs `rt`: where there is none, it ends make with one line
NEEDS_KIT = $(if $(shell command -v rt),,$(error $@ needs rt, the command of the kit of Rattle (its compiler and \
  prover), and there is none here; `make help` lists the targets that work without it))
.PHONY: help run test prove edits build archive lib generate rust exports_are_current install uninstall examples bench
run:
	@python3 tools/script_program.py '$(SCRIPT)'

help:
	@sed -n '/^#/!q; s/^# \{0,1\}//p' Makefile

build:
	@$(NEEDS_KIT)
	@for crate in $(LIBRARIES); do (cd crates/$$crate && rt lib >&2) || exit 1; done
	@cd crates/odht_table && rt run < stdin >&2
	@echo crates/odht_table/out/odht_table

test:
	@python3 tests/run.py $(PARTS)

prove:
	@$(NEEDS_KIT)
	@python3 tools/prove.py $(if $(WORD),--word) rt ci

edits:
	@$(NEEDS_KIT)
	@python3 tools/edits.py run $(NAMES)

# `rt lib` takes a quarter of a minute also where nothing changed, so it is asked only where something is newer
sources = crates.txt $(shell find $(foreach crate,$(1),crates/$(crate)) -path '*/out' -prune -o \
  '(' -name '*.rt' -o -name '*.antt' ')' -print)
crates/odht_c/out/libodht_c.a: $(call sources,$(FOR_C))
	@$(NEEDS_KIT)
	@mkdir -p build
	@test -f $@ || echo 'proving the library first, ten to twenty minutes; build/lib.log tells how far it is' >&2
	@for crate in $(FOR_C); do \
	  (cd crates/$$crate && rt lib) > build/lib.log 2>&1 || { cat build/lib.log >&2; exit 1; }; \
	done
	@touch $@

archive:
	@$(NEEDS_KIT)
	@mkdir -p build crates/odht_c/out
	@python3 tools/archive.py > build/archive.log 2>&1 || { cat build/archive.log >&2; exit 1; }

include packaging/library.mk

# the proved crates without their contracts, as Rust
ERASE = CARGO_TARGET_DIR=$(abspath build/cargo) cargo run --quiet --offline --manifest-path tools/erase/Cargo.toml --
rust:
	@$(ERASE) crates build/erased
	@find build/erased -name '*.rs' -exec rustfmt --edition 2021 --config-path rust/rustfmt.toml {} +
	@rm -rf rust/src/generated rust/c/src/generated rust/cli/src/generated rust/table/src/generated
	@cp -R build/erased/. rust/ && rm -rf build/erased

generate:
	@python3 tools/generate
	@$(MAKE) --no-print-directory rust

# the program for table files: with its proofs, or of erased source
PROVED_TOOL = crates/odht_tool/out/odht_tool
ERASED_TOOL = build/cargo-cli/release/odht
TOOL = $(firstword $(wildcard $(PROVED_TOOL)) $(ERASED_TOOL))
BINDIR ?= $(PREFIX)/bin
# where each shell looks for what completes the words of a program
SHARED_DIR = $(DESTDIR)$(PREFIX)/share
MANUAL = $(SHARED_DIR)/man/man1/odht.1
IN_BASH = $(SHARED_DIR)/bash-completion/completions/odht
IN_ZSH = $(SHARED_DIR)/zsh/site-functions/_odht
IN_FISH = $(SHARED_DIR)/fish/vendor_completions.d/odht.fish
BESIDE_TOOL = $(MANUAL) $(IN_BASH) $(IN_ZSH) $(IN_FISH)
.PHONY: tool cli install-tool uninstall-tool
tool: $(PROVED_TOOL)
	@echo $(PROVED_TOOL)

$(PROVED_TOOL): $(call sources,$(FOR_TOOL) odht_tool)
	@$(NEEDS_KIT)
	@mkdir -p build
	@echo 'proving the program, twenty to thirty minutes where nothing is proved yet; build/tool.log tells how far it is' >&2
	@for crate in $(FOR_TOOL); do \
	  (cd crates/$$crate && rt lib) > build/tool.log 2>&1 || { cat build/tool.log >&2; exit 1; }; \
	done
	@(cd crates/odht_tool && rt run -- --version) > build/tool.log 2>&1 || { cat build/tool.log >&2; exit 1; }
	@touch $@

cli:
	@cargo build --quiet --release --offline --manifest-path rust/cli/Cargo.toml --target-dir build/cargo-cli
	@echo $(ERASED_TOOL)

# what `make cli` has made is installed as it is, so it can be made as one user and installed as another
install-tool: $(if $(wildcard $(PROVED_TOOL) $(ERASED_TOOL)),,cli)
	@install -d '$(DESTDIR)$(BINDIR)' $(foreach file,$(BESIDE_TOOL),'$(dir $(file))')
	@install -m 755 $(TOOL) '$(DESTDIR)$(BINDIR)/odht'
	@install -m 644 packaging/odht.1 '$(MANUAL)'
	@install -m 644 packaging/completions/odht.bash '$(IN_BASH)'
	@install -m 644 packaging/completions/_odht '$(IN_ZSH)'
	@install -m 644 packaging/completions/odht.fish '$(IN_FISH)'
	@echo "$(BINDIR)/odht is $$($(TOOL) --version)"

uninstall-tool:
	@rm -f '$(DESTDIR)$(BINDIR)/odht' $(foreach file,$(BESIDE_TOOL),'$(file)')

LINK_RUST = -L native=build -l static=odht

examples: lib
	@MAKE='$(MAKE)' sh examples/run.sh

# both tables are built for the same level of processor; as one unit, so that what moves the code stands before all
BENCH_RUST = rustc -C opt-level=3 -C codegen-units=1 -C target-cpu=x86-64-v2
ORIGINAL = $(if $(ODHT_RUST),build/original/libodht.rlib)
LINK_ORIGINAL = $(if $(ODHT_RUST),--cfg original -L dependency=build/original --extern odht=$(ORIGINAL))
BENCH = $(BENCH_RUST) --edition 2021 -D warnings --check-cfg 'cfg(original, moved)' \
  $(LINK_ORIGINAL) bench/main.rs $(LINK_RUST)

bench: $(if $(PEERS),bench-peers,bench-tables)

.PHONY: bench-tables bench-peers
bench-tables: build/libodht.a $(if $(ODHT_RUST),original)
	@mkdir -p build
	@$(BENCH) -o build/bench
	@$(BENCH) --cfg moved -o build/bench_moved
	@$(if $(MARKDOWN),sh bench/machine.sh)
	@build/bench $(if $(QUICK),quick) $(if $(CHECK),check) $(if $(WORST),worst) $(if $(ORDER),order) \
	  $(if $(MARKDOWN),markdown)
	@$(if $(ODHT_RUST),$(if $(QUICK)$(CHECK)$(ORDER),,$(MAKE) --no-print-directory bench-crate))

# this library beside others that are installed; the pictures go beside RESULTS.md where Markdown is asked for
bench-peers: build/libodht.a
	@BENCH_RUST='$(BENCH_RUST)' CC='$(CC)' sh bench/peers.sh $(if $(MARKDOWN),bench,build) $(if $(QUICK),quick) \
	  $(if $(MARKDOWN),markdown)

# the crate for Rust, as it is and with the feature `checked`, beside the original; it needs ODHT_RUST and nothing proved
# where a branch that crosses a border of 32 bytes is slow, ALIGNED=1 has none in any of the three, nor in their loops
.PHONY: bench-crate
bench-crate: BENCH_RUST += $(if $(ALIGNED),-C llvm-args=-x86-branches-within-32B-boundaries)
bench-crate: original
	@$(BENCH_RUST) --edition 2021 --crate-type rlib --crate-name odht_default --cfg 'feature="std"' rust/src/lib.rs \
	  -o build/original/libodht_default.rlib
	@$(BENCH_RUST) --edition 2021 --crate-type rlib --crate-name odht_checked --cfg 'feature="std"' --cfg 'feature="checked"' \
	  rust/src/lib.rs -o build/original/libodht_checked.rlib
	@$(BENCH_RUST) --edition 2021 -D warnings bench/crate.rs -L dependency=build/original --extern odht=build/original/libodht.rlib \
	  --extern odht_default=build/original/libodht_default.rlib --extern odht_checked=build/original/libodht_checked.rlib -o build/bench_crate
	@$(if $(ALIGNED),echo 'all crates and the loops over them are built with branches kept within 32 bytes')
	@build/bench_crate $(ITEMS)

# what bounds the lines of the tables: loops that do only what a job cannot do without; it needs ODHT_RUST
.PHONY: bounds
bounds: build/libodht.a original
	@mkdir -p build
	@$(BENCH_RUST) --edition 2021 -D warnings $(LINK_ORIGINAL) bench/bounds.rs $(LINK_RUST) -o build/bounds
	@for items in 1000 100000 1000000 10000000; do \
	  build/bounds u64 $$items && build/bounds calls $$items || exit 1; \
	done
	@for items in 1000 100000 1000000; do build/bounds b16 $$items && build/bounds growing $$items || exit 1; done

# the longest searches; it needs nothing proved
.PHONY: searches
searches:
	@mkdir -p build/searches
	@$(BENCH_RUST) --edition 2021 --crate-type rlib --crate-name odht --cfg 'feature="std"' rust/src/lib.rs \
	  -o build/searches/libodht.rlib
	@$(BENCH_RUST) --edition 2021 -D warnings bench/searches.rs --extern odht=build/searches/libodht.rlib -o build/searches/searches
	@build/searches/searches $(SLOTS)

# the Rust crate, from a checkout or from a flat folder (bench/original.sh)
.PHONY: original
original:
	@rm -rf build/original && mkdir -p build/original
	@sh bench/original.sh '$(ODHT_RUST)' build/original
	@$(BENCH_RUST) --edition 2021 --crate-type rlib --crate-name cfg_if bench/cfg_if.rs -o build/original/libcfg_if.rlib
	@$(BENCH_RUST) --edition 2018 --cap-lints allow --crate-type rlib --crate-name odht build/original/src/lib.rs --extern cfg_if=build/original/libcfg_if.rlib -o build/original/libodht.rlib
