# make try      runs the stored example without any proof, in one to two minutes; its text file is left in target/try
# make check    tries all without any proof, in some minutes: the checks of the libraries, the cases, examples/ and the documents
# make          proves everything and builds the program to target/lasline
# make run      builds it, and runs the stored example in target/example
# make examples builds it, and runs the pipelines of examples/ in target/examples; then it proves, builds and runs the program of
#               examples/own_filter, which has a filter of its own, in target/own_filter
# make test     the merge gate: every proof, every edit that must be refused, every test, every program; then the documents, and
#               the pipelines of examples/ by the program that the gate built, which becomes target/lasline
# make lint     scripts, the manual page, completions, and whether examples/make.py writes the stored files
# make install  PREFIX=/usr/local: the program, its manual page, completions for bash and zsh, the documents and the licence
# make clean    removes target/ and what rt made

PREFIX ?= /usr/local
CRATE = crates/lasline
PROVED = /^crate / { name = $$2; sub(":", "", name) } /^logic=proved/ { print "proved", name; fflush() }
SOURCES = crates.txt HANDLES $(shell find crates -name out -prune -o -type f -print)

all: target/lasline

# The build ends with a run without words, whose answer doesn't count. It names each crate once that is proved.
target/lasline: $(SOURCES)
	mkdir -p target
	rm -f $(CRATE)/out/lasline
	@echo "proving and building: this takes a while the first time; target/build.log tells all"
	cd $(CRATE) && { rt run 2>&1 || true; } | tee ../../target/build.log | awk '$(PROVED)'
	@test -x $(CRATE)/out/lasline || { tail -n 20 target/build.log; exit 1; }
	cp $(CRATE)/out/lasline $@

# rt runs the program in a folder that it removes, so the pipeline names its output by a whole path.
try:
	rm -rf target/try
	mkdir -p target/try
	printf '["in.las","%s/target/try/o.txt"]\n' "$(CURDIR)" > target/try/p.json
	@echo "building without proofs: nothing more is printed for one to two minutes"
	cd $(CRATE) && rt try --data p.json=../../target/try/p.json --data in.las=data/in.las -- run p.json
	cat target/try/o.txt

check:
	docs/try.sh target/check

run: target/lasline
	rm -rf target/example
	mkdir -p target/example
	cp $(CRATE)/data/p.json $(CRATE)/data/in.las target/example/
	cd target/example && ../lasline run p.json && echo && cat o.txt

examples: target/lasline
	examples/run.sh target/lasline target/examples
	examples/own_filter.sh target/own_filter

test:
	rt ci
	mkdir -p target
	cp $(CRATE)/out/lasline target/lasline
	docs/check-errors.sh
	docs/check.sh
	examples/run.sh target/lasline target/examples

lint:
	docs/lint.sh target/lint

install: target/lasline
	install -d $(DESTDIR)$(PREFIX)/bin
	install -m 755 target/lasline $(DESTDIR)$(PREFIX)/bin/lasline
	install -d $(DESTDIR)$(PREFIX)/share/man/man1
	install -m 644 man/lasline.1 $(DESTDIR)$(PREFIX)/share/man/man1/lasline.1
	install -d $(DESTDIR)$(PREFIX)/share/bash-completion/completions
	install -m 644 completions/lasline.bash $(DESTDIR)$(PREFIX)/share/bash-completion/completions/lasline
	install -d $(DESTDIR)$(PREFIX)/share/zsh/site-functions
	install -m 644 completions/_lasline $(DESTDIR)$(PREFIX)/share/zsh/site-functions/_lasline
	install -d $(DESTDIR)$(PREFIX)/share/doc/lasline/docs
	install -m 644 README.md CHANGELOG.md LICENSE $(DESTDIR)$(PREFIX)/share/doc/lasline/
	install -m 644 docs/*.md $(DESTDIR)$(PREFIX)/share/doc/lasline/docs/

clean:
	rm -rf target crates/*/out

.PHONY: all try check run examples test lint install clean
