# make demo          prints requests of examples/ and their replies, serves, publishes and walks, by the
#                    program built without a proof, or by the one of make install
# make test          the gate: the rules' marks, the words to avoid, the functions and clauses that the claims name, the
#                    public functions that nobody calls, the list of crates, the version, the pictures, every proof
#                    from nothing, mutants, tests and the program, and then the rows of tests/rows, the cases of
#                    tests/corpus, replies on random catalogues and a few idle connections with the built program
# make mutants CRATE..  tries the mutants that the gate doesn't, of these crates or of all; the prover
#                    must reject each
# make commands      runs the commands on the profiles of examples/, and verifies each track's
#                    certificate; reviews random catalogues; the program is built without a proof
# make serving       tests the server and the walk, after make install, over the loopback
# make metrics       tests the pages of an operator's address, after make install; it needs promtool
# make idle          tests the server before thousands of idle and slow connections, after make install; it needs wrk
# make door          tests that connections which do nothing keep neither the operator nor a client out of the server,
#                    after make install
# make history       kills a server with a history 500 times while it publishes, after make install, and looks
#                    for what it replied to
# make cluster       tests three servers of one history in etcd, after make install; it needs etcd-server and nginx
# make install       proves, builds and installs the program below PREFIX; what make test proved isn't proved again
# make deb           builds a Debian package of the program, after make install, and tests it; it needs
#                    systemd, and root or fakeroot
# make allocations   runs the program, after make install, and the tests of single calls without
#                    memory, which it proves and builds, with each allocation failing in turn; it
#                    needs a C compiler
# make fuzz          gives the program, after make install, a million changed cases of tests/corpus, or
#                    as many as ten minutes allow, and judges each by a model
# make bench         times the program, after make install, on large profiles beside the tomllib of
#                    Python, 3.11 or newer
# make load          measures the server, after make install, beside nginx; it needs wrk
# make instructions  counts the instructions of a reply, after make install; it needs valgrind

PREFIX ?= /usr/local

# what follows `mutants` are names of crates, and no targets
ifeq (mutants,$(firstword $(MAKECMDGOALS)))
CRATES := $(wordlist 2,$(words $(MAKECMDGOALS)),$(MAKECMDGOALS))
$(eval $(CRATES):;@:)
endif

.PHONY: demo test mutants commands serving metrics idle door history cluster install deb allocations fuzz bench load instructions $(CRATES)

demo:
	@examples/demo.py

test:
	tests/rules.py
	tests/words.py
	tests/claims.py
	tests/callers.py
	tests/crates.py
	tests/version.py
	tests/edits.py
	docs/pictures/draw.py --check
	packaging/build.py --gate
	tests/rows.py
	tests/corpus.py
	tests/chains.py
	tests/idle.py --only few --size 8

mutants:
	tests/mutants.py $(CRATES)

commands:
	tests/commands.py
	tests/review.py

serving:
	tests/serve.py
	tests/walk.py

metrics:
	tests/metrics.py
	tests/scrape.py

idle:
	tests/idle.py

door:
	tests/door.py

history:
	tests/history.py

cluster:
	tests/cluster.py

install:
	@echo "proves the libraries of the program side by side; half an hour to an hour on four processors if nothing is proved yet"
	packaging/build.py
	install -d $(DESTDIR)$(PREFIX)/bin
	install -m 755 crates/omaha/out/omaha $(DESTDIR)$(PREFIX)/bin/omaha

deb:
	packaging/deb.py
	tests/deb.py

allocations:
	for crate in catalogue_rows client_rows http_rows; do \
		(cd crates/$$crate && rt test -- memory) || exit 1; done
	tests/allocations.py

fuzz:
	tests/fuzz.py

bench:
	bench/profiles.py

load:
	bench/http.py

instructions:
	bench/once.py
