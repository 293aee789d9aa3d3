# The commands of the README. Their scripts are in tools/, and their logs in out/logs.

.PHONY: help serve demo build test prove core run check quick fmt edits tried wrong soak several bench install deb image life version release reproduce

# The default target lists all targets. Each line has the text after ## at a target.
help:
	@sed -n 's/^\([a-z]*\):.*## /  make \1	/p' Makefile | expand -t 19

# Compiles what is missing, in two minutes the first time. Ctrl-C ends it.
serve: ## serves on 127.0.0.1:4318 with a SQLite file as the sink
	@tools/serve.py

# It kills them while they run, and at the end compares their totals: make demo, or make demo SEED=7 SECONDS=20.
demo: ## two programs on OpenTelemetry's SDK, the service, PostgreSQL and Prometheus
	@demo/run.py $(or $(SEED),1) $(or $(SECONDS),60)

build: ## compiles totxegun, release, into bin/
	@tools/service.py

# Tests the sources, the service, and the programs around it; tools/gate.py lists the steps.
test: ## all tests, without the prover
	@tools/gate.py

# Checks the toolchain first; the targets above don't need it. If the crates have changed, book/ is rewritten. If not, a library in
# book/ that differs from the proofs' result is a fault.
prove: ## proves the core from nothing, and compares the library in book/ with it
	@tools/toolchain
	@tools/prove.py

# Proves crates in parallel, and only those that have changed. With TOTXEGUN_BOOK=$PWD/out/book cargo links the library made here.
core: ## proves the core step by step, with play and gateway in bin/
	@tools/toolchain
	@tools/build.py

# Runs its stored script, in about a minute at most.
run: ## runs the script program play, unproved
	@tools/toolchain
	@cd crates/play && mkdir -p out && rt try < stdin 2> out/run.log || { cat out/run.log; exit 1; }
	@echo 'This run proved nothing: make core proves what it builds, make prove everything.'

# Works over what make core has built: make check NAME=delta_book, or NAME="delta_book --allow-holes".
check: ## checks one crate: make check NAME=delta_book
	@tools/toolchain
	@tools/check.py $(NAME)

# NAME is a crate or a folder of service/src: make quick NAME=delta_book, make quick NAME=sink/postgres.
quick: ## checks one part, and runs its tests: make quick NAME=sink
	@tools/quick.py $(NAME)

fmt: ## lays out the code of the service, and of the crates if the toolchain is there
	@tools/cargo fmt
	@! command -v rt > /dev/null || tools/format.py

# Also tries the edits that the gate leaves out, many in one check: NAME=delta_book, or NAME=delta_book/EDIT.
edits: ## tries all wrong code: LIST=1 lists it
	@$(if $(LIST),,tools/toolchain)
	@tools/edits.py $(if $(LIST),--list) $(NAME)

# Prints the heads of the tests.
tried: ## lists each test with what it tries: NAME=word; or the commands of NAME=tools, bench, demo
	@tools/tried.py $(NAME)

# Takes a minute or two for each copy: a test must find its mistake.
wrong: ## tries wrong copies of the service
	@tools/wrong.py $(NAME)

# Kills the program that make build has built again and again. With STALLS=1, as root, its disk also stalls now and then. With
# STORE=1 three instances share a store, each on a machine of its own: make soak STORE=1, or make soak STORE=1 SEED=7,8. With
# ATTACK=1 attackers post beside honest senders for two hours. With WHOLE=1 tests make all runs, not the sample of make test.
soak: ## longer tests, an hour under load: STALLS=1, STORE=1, ATTACK=1, WHOLE=1
	@[ -x bin/totxegun ] || { echo "there is no bin/totxegun: make build makes it" >&2; exit 1; }
	@$(if $(STORE),tests/several_machines.py bin/totxegun 3600 $(SEED) --long,\
	   $(if $(ATTACK),tests/mixed_attack.py bin/totxegun 7200 $(or $(SEED),1) $(if $(STALLS),--stalls),\
	   $(if $(RETRIES),tests/retries.py bin/totxegun 100000 1000 $(or $(SEED),1) &&\
	   tests/retries.py bin/totxegun 100000 1000 $(or $(SEED),1) --instances 3,\
	   $(if $(WHOLE),TOTXEGUN_TESTS=whole tools/cargo test && tests/service_interrupted.py bin/totxegun,\
	   tests/service_load.py bin/totxegun 3600 $(if $(STALLS),--stalls)))))

# Runs what make build has built. The gate runs most of these tests for a shorter time.
SEVERAL = orders_anywhere.py store_peers.py several_machines.py:90 under_patroni.py store_move.py
several: ## the tests of several machines over a store, in half an hour
	@[ -x bin/totxegun ] || { echo "there is no bin/totxegun: make build makes it" >&2; exit 1; }
	@tools/needs several
	@wrong=0; for it in $(SEVERAL); do echo "$$it"; words=$${it#*.py}; \
		tools/own_network.py tests/$${it%%:*} "$$PWD/bin/totxegun" $${words#:} || wrong=1; done; exit $$wrong

# DESTDIR, PREFIX (/usr/local), SYSCONFDIR (/etc) and UNITDIR (PREFIX/lib/systemd/system) set the places.
install: ## installs what make build has built: DESTDIR=, PREFIX=/usr/local
	@DESTDIR='$(DESTDIR)' PREFIX='$(PREFIX)' SYSCONFDIR='$(SYSCONFDIR)' UNITDIR='$(UNITDIR)' tools/install

deb: build ## a Debian package of it
	@tools/deb.py

image: build ## an image of it for containers
	@tools/image

# Needs root, and make deb and make image before it. Fetches Debian's base once, into /var/tmp.
life: ## tries package and image: installed, upgraded under load, killed, purged, stopped
	@tests/package_lives.py out/totxegun_$$(cat VERSION)_amd64.deb
	@tests/package_image.py out/totxegun_$$(cat VERSION)_image.tar

version: ## the version, and which book bin/totxegun has
	@cat VERSION
	@[ ! -x bin/totxegun ] || bin/totxegun version

# make release VERSION=0.6.0, in a clean tree on which make test has passed here: docs/RELEASING.md.
release: ## commits and tags a version, and makes its files: VERSION=
	@tools/release.py '$(VERSION)'

reproduce: ## builds the service twice, in two folders, and compares
	@tools/reproduce

bench: ## figures of docs/MEASURED.md that want an idle machine, with what `make build` has built
	@bench/all.sh
