# For a newcomer: `make demo` builds the program and reads a disk with it, `make test` runs the gate.
PREFIX ?= /usr/local

PROGRAM = crates/flux/out/flux
# What the program is made of.
SOURCES = crates.txt $(shell find crates -name out -prune -o \( -name '*.rt' -o -name '*.antt' \) -print)

# Where the demo's dumps are made, and how they are read.
DEMO = out/demo
FIRST = $(PROGRAM) read ibm-360 $(DEMO)/first
BOTH = $(FIRST) $(DEMO)/second

.PHONY: demo test check wrong dist install uninstall definitions documents

# The program is built only once all of it is proved, so a first build takes long. Later calls start at once.
demo: $(PROGRAM) $(DEMO)/disk.img
	@echo "which disk it is: $(PROGRAM) identify $(DEMO)/first"
	@$(PROGRAM) identify $(DEMO)/first | tail -n 1
	@echo
	@echo "one dump: $(FIRST) > $(DEMO)/first.img 2> $(DEMO)/first.txt"
	@$(FIRST) > $(DEMO)/first.img 2> $(DEMO)/first.txt; echo "exit code $$?"
	@echo "what is not good, and the totals:"
	@grep -v ' good [1-9]' $(DEMO)/first.txt; tail -n 1 $(DEMO)/first.txt
	@echo
	@echo "with a second dump: $(BOTH) > $(DEMO)/both.img 2> $(DEMO)/both.txt"
	@$(BOTH) > $(DEMO)/both.img 2> $(DEMO)/both.txt; echo "exit code $$?"
	@echo "what is not good, a sector that another drive wrote again, and the totals:"
	@grep -v ' good [1-9]' $(DEMO)/both.txt; grep '^21\.0 04' $(DEMO)/both.txt; tail -n 1 $(DEMO)/both.txt
	@echo "bytes of the image that differ from what was recorded, all of them in the sectors that are not good:"
	@cmp -l $(DEMO)/both.img $(DEMO)/disk.img | wc -l
	@echo "the strict reading of the second dump has one sector less; a picture of it, for any browser: $(DEMO)/map.svg"
	@cat $(DEMO)/second/*.raw | $(PROGRAM) map ibm-360 > $(DEMO)/map.svg; test $$? -le 1

# The streams are made by the program from an image that is made up, and are then damaged.
$(DEMO)/disk.img: $(PROGRAM) samples/demo.py
	python3 samples/demo.py $(PROGRAM) $(DEMO)

# The crates that do not stand on each other are proved side by side; then the program is linked, and run on a stream.
$(PROGRAM): $(SOURCES)
	.ci/first-build
	$@ turns < samples/three-turns.raw
	touch $@

# One crate, over what earlier checks kept: make check CRATE=ibm_fm
check:
	cd crates/$(CRATE) && rt check

test:
	.ci/run

# The definitions that are to be believed, in the order of docs/READING.md, and what is refused, for a person to read.
definitions:
	mkdir -p out
	.ci/definitions > out/definitions.md
	.ci/wrong --names > out/refused.md

# What documents have of the program: the manual page, of its template and of what the program says of itself; and README's picture, of the demo's
# first dump. The gate wants them to be these.
documents: $(PROGRAM) $(DEMO)/disk.img
	.ci/manual $(PROGRAM) > out/flux.1
	mv out/flux.1 man/flux.1
	$(PROGRAM) read --picture ibm-360 $(DEMO)/first > docs/disk.svg; test $$? -le 1

# The wrong bodies that the gate does not try, in a copy: make wrong, or make wrong NAME=turn_merge (CONTRIBUTING.md says how long they take)
wrong:
	.ci/wrong $(NAME)

# Packages for those who have no toolchain: the same bytes each time that they are made of one commit.
dist: $(PROGRAM)
	.ci/packages dist

install: $(PROGRAM)
	install -D -m 755 $(PROGRAM) $(DESTDIR)$(PREFIX)/bin/flux
	install -D -m 644 man/flux.1 $(DESTDIR)$(PREFIX)/share/man/man1/flux.1
	install -D -m 644 completions/flux.bash $(DESTDIR)$(PREFIX)/share/bash-completion/completions/flux

uninstall:
	rm -f $(DESTDIR)$(PREFIX)/bin/flux $(DESTDIR)$(PREFIX)/share/man/man1/flux.1
	rm -f $(DESTDIR)$(PREFIX)/share/bash-completion/completions/flux
