# `make help` prints what can be made. `make -j4` proves four crates side by side.
.PHONY: all help demo quick test check lint bench install uninstall deb release clean

PREFIX = /usr/local
DESTDIR =
# What is installed and packed. `make quick` builds bin/mdvsp-quick, which says that it is unproved.
PROGRAM = bin/mdvsp

# The libraries below the program, lowest first, from crates.txt. A library is proved once those that it names are.
NAMES := $(shell sed -n 's/^\([a-z0-9_]*\)[^:\#]*:.*/\1/p' crates.txt)
LIBRARIES := $(filter-out mdvsp_main example_% test_%,$(NAMES))
needs_of = $(filter $(LIBRARIES),$(shell sed -n 's/^$(1)\( [^:\#]*\)*://p' crates.txt))
sources_of = $(shell find crates/$(1) -name out -prune -o -type f \( -name '*.rt' -o -name '*.antt' \) -print)
stamp_of = crates/$(1)/out/proved

all: bin/mdvsp ## proves the program and builds bin/mdvsp

help: ## prints this
	@sed -n 's/^\([a-z]*\):.*## /\1|/p' Makefile | awk -F '|' '{ printf "make %-10s %s\n", $$1, $$2 }'

define PROVED
$(call stamp_of,$(1)): $(call sources_of,$(1)) $(foreach name,$(call needs_of,$(1)),$(call stamp_of,$(name)))
	tools/prove.py $(1)
	touch $$@
endef
$(foreach name,$(LIBRARIES),$(eval $(call PROVED,$(name))))

bin/mdvsp: $(call sources_of,mdvsp_main) $(foreach name,$(call needs_of,mdvsp_main),$(call stamp_of,$(name)))
	cd crates/mdvsp_main && rt run -- check < stdin > /dev/null
	mkdir -p bin && cp crates/mdvsp_main/out/mdvsp_main $@

demo: ## plans a shipped timetable and has the plan audited, within two minutes and before any proof
	@examples/demo.sh

quick: bin/mdvsp-quick ## builds bin/mdvsp-quick with rustc, in 40 seconds and without the proof

bin/mdvsp-quick: $(wildcard bench/plain/*) $(foreach name,$(LIBRARIES) mdvsp_main,$(call sources_of,$(name)))
	@bench/quick.sh $@

test: ## the merge gate: every proof, every test, and every command of the pages
	./.ci/run

check: ## what needs no proof: tests unproved, scripts, Python and browser tests, within five minutes
	@tests/unproved.sh

lint: ## counts of the sources, groups of crates, tables of refusals, the usage, links of pages
	@tools/lint.sh

bench: bin/mdvsp ## times the built program; it proves and asserts nothing
	@bench/run.py

install: $(PROGRAM) ## installs the program, its manual page, completions and pages below PREFIX, /usr/local
	packaging/install.sh $(DESTDIR)$(PREFIX) $(PROGRAM)

uninstall: ## removes them again
	packaging/install.sh --remove $(DESTDIR)$(PREFIX)

deb: $(PROGRAM) ## makes a Debian package in dist/
	@packaging/deb.sh $(PROGRAM)

release: $(PROGRAM) ## packs the program, the pages and the judges in dist/, with their checksums
	@packaging/release.sh $(PROGRAM)

clean: ## removes what was built
	rm -rf bin dist crates/*/out
