# `make` builds the program, `make run` runs its main job, `make test` runs the whole gate (`rt ci`, then the suites of tests/ with the
# program that it has built), and `make cases` runs the suites alone.
# `make large` tries sizes of gigabytes, for minutes, and `make hostile` a million hostile runs beside a plain model, for a quarter of an hour.
# `make try ARGS="run examples/commuter.gr examples/commuter.ss"` runs a command with no proof, within a minute.
# `make part CRATES="ea_input"` proves some crates and those that they stand on, with their edits and tests.
# `make lib` builds the library for C, C++ and Python (lib/), and puts it beside the Python package. `make install PREFIX=..` installs
# the program, its man page, the completions of bash, zsh and fish, the library, its headers and its pkg-config file.
# `make dist` packs what is built into dist/, with LOG=gate.log what `make test` printed; `make dist-test` tries the packages on bare Debian
# systems (SUITES="stable oldstable"); `make reproduce` packs twice and compares, with BUILD=1 after two builds, which take half an hour.
# `make serve` shows the commuter town on a map in the browser, with ARGS="--port 8400" at another address.
# `make bench` measures the program in bin/ beside its peers on networks of up to 10^6 nodes, with SIZE=large up to 10^7, and writes
# bench/results/ and docs/performance.md.
.PHONY: all lib run serve try test part cases large hostile dist dist-test reproduce bench install clean

PREFIX ?= /usr/local

all:
	@python3 tools/build.py

lib:
	@python3 tools/library.py

run: all
	bin/earliest run examples/four-nodes.gr examples/four-nodes.ss --walks

# Debian's Python sees the libraries that its packages install.
serve:
	@test -f python/earliest/libearliest.so || $(MAKE) lib
	PYTHONPATH=python $(or $(wildcard /usr/bin/python3),python3) -m earliest serve examples/commuter.gr --tp examples/commuter.tp --co examples/commuter.co --per-second 1 $(ARGS)

try:
	@python3 tools/try.py $(ARGS)

test:
	python3 tests/gate.py

part:
	rt ci $(or $(CRATES),$(error name some crates: make part CRATES="ea_input"))

cases: all lib
	python3 tests/gate.py bin/earliest

large: all
	python3 tests/cli/nightly.py bin/earliest

hostile: all lib
	python3 tests/hostile/run.py bin/earliest --full --processes 4

dist:
	@test -x bin/earliest -a -f lib/libearliest.so || $(MAKE) all lib
	@python3 tools/dist.py $(if $(LOG),--log $(LOG))

dist-test:
	@python3 tools/dist_test.py $(SUITES)

reproduce:
	@python3 tools/reproduce.py $(if $(BUILD),--build)

bench:
	@test -x bin/earliest || $(MAKE) all
	python3 bench/bench.py $(if $(filter large,$(SIZE)),--large)

install: all lib
	install -D bin/earliest $(DESTDIR)$(PREFIX)/bin/earliest
	python3 tools/pages.py bin/earliest $(DESTDIR)$(PREFIX)
	python3 tools/library.py --install $(PREFIX) $(DESTDIR)$(PREFIX)

clean:
	rm -rf bin lib dist python/earliest/libearliest.so crates/*/out
