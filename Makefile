# make demo      prove and build the program, and show the order, finding and keys on the examples
# make test      prove everything, try the must-fail edits, run all tests
# make install   copy the program to PREFIX/bin

PREFIX ?= /usr/local
PROGRAM := crates/nullahbowl/out/nullahbowl

.PHONY: all build demo test install kit

all: build

kit:
	@command -v rt >/dev/null || { \
	  echo "The Rattle kit is missing: its command 'rt' has to be on the PATH (README.md, 'What it needs')."; exit 1; }

build: kit
	@echo "Proving and building $(PROGRAM); the first time takes some minutes."
	@tests/build

demo: build
	@echo "Seven names, left as they came and right in the order of the book: first by letters, then by marks ('), then by capitals."
	@echo "ch is a letter of its own, behind c."
	@echo
	@echo "  \$$ $(PROGRAM) examples/names.txt | paste examples/names.txt -"
	@$(PROGRAM) examples/names.txt | paste examples/names.txt - | sed 's/^/    /'
	@echo
	@echo "Who looks for names types how they begin, and sees those that begin so and no others. Marks and capitals don't count here."
	@for ask in c ch CAB; do \
	  echo; \
	  echo "  \$$ (cat examples/names.txt; echo find $$ask) | $(PROGRAM)"; \
	  (cat examples/names.txt; echo "find $$ask") | $(PROGRAM) | sed 's/^/    /'; \
	done
	@echo
	@echo "A name's sort key is a row of numbers. Names stand as their keys do, number by number:"
	@echo
	@echo "  \$$ $(PROGRAM) examples/keys.txt | paste examples/keys.txt -"
	@$(PROGRAM) examples/keys.txt | paste examples/keys.txt - | sed 's/^/    /'

test: kit
	@tests/all

install: build
	install -D -m 755 $(PROGRAM) $(DESTDIR)$(PREFIX)/bin/nullahbowl
