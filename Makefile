# Gilboreth. `make test` proves and runs everything; it is what .ci/run calls.
.PHONY: test run bench example install clean
archive = target/staticlib/libgilboreth.a

test:
	@tools/test

# Serves the lines of standard input; proves and builds the program first, unless nothing changed.
run:
	@cd crates/lockline && rt run </dev/null >&2
	@tools/lockline

bench:
	@tools/bench

example: $(archive)
	@tools/example

install: $(archive)
	@PREFIX='$(PREFIX)' DESTDIR='$(DESTDIR)' tools/install

$(archive): crates.txt $(shell find crates -name out -prune -o -type f -print)
	@tools/archive

clean:
	rm -rf target host/target crates/*/out
