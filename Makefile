# The recipes of this repository, one line each; `make help` lists them.
SCRIPT ?= examples/ping.play
SETTINGS ?= examples/lobby.toml
ACCOUNTS ?= examples/accounts.toml

.DEFAULT_GOAL := help
.PHONY: help play serve setup hash view build gateway library install uninstall deb test unit fmt check tour bench memory soak connections record counts hostile

help: ## lists the targets
	@awk -F ':.*## ' '/^[a-z]+:.*## / { printf "  make %-12s %s\n", $$1, $$2 }' Makefile

serve: ## runs the server (SETTINGS=FILE ACCOUNTS=FILE), until Ctrl-C
	@tools/run.sh lobby_main serve $(abspath $(SETTINGS)) $(abspath $(ACCOUNTS))

play: ## plays a script of a lobby (SCRIPT=FILE) and shows what each client gets
	@tools/run.sh lobby_play < $(SCRIPT)

setup: ## looks at the files of settings and accounts, and says what is wrong
	@tools/run.sh lobby_check $(abspath $(SETTINGS)) $(abspath $(ACCOUNTS))

hash: ## reads a password and prints the word that stands for it in a file of accounts
	@program=$$(tools/program.sh lobby_main) && LOBBY_MAIN=$$program operator/lobby_account.py hash

view: ## reads the bytes that a client was sent, and shows what it knows then
	@tools/run.sh view_show

build: ## proves and builds the programs, optimised, into bin/
	@tools/build.py

gateway: ## builds the gateway for SpringLobby into bin/, by Go
	@program=$$(tools/gateway.sh) && echo "$$program is built"

library: ## proves and builds the C library of a view into bin/ (include/lobby.h, examples/battles.c)
	@tools/library.sh

install: ## installs programs, manual pages, files of configuration and units (PREFIX, SYSCONFDIR, DESTDIR)
	@PREFIX='$(PREFIX)' SYSCONFDIR='$(SYSCONFDIR)' DESTDIR='$(DESTDIR)' packaging/install.sh install

uninstall: ## takes away what install installed, but for files of configuration that were changed
	@PREFIX='$(PREFIX)' SYSCONFDIR='$(SYSCONFDIR)' DESTDIR='$(DESTDIR)' packaging/install.sh uninstall

deb: ## makes the Debian packages in out/
	@packaging/deb.py

.PHONY: python
python: library ## makes the wheel of the Python package, with the C library in it, into out/
	@rm -f out/rudderraisin-*.whl
	@echo "out/$$(python/build_wheel.py bin/liblobby.so out) is made"

test: ## the gate: quick checks first, then proves what no run here proved before, tries wrong bodies, runs all tests
	@tools/gate.py

unit: ## runs quick checks and the tests of what you changed, without a proof (CRATE=lobby_tests)
	@tools/unit.sh $(CRATE)

.PHONY: protocol
protocol: ## writes what many files have of each command and reply, from the tables of protocol/
	@tools/protocol.py --write

fmt: ## lays out the crates that you changed
	@for crate in $$(tools/changed.sh); do (cd crates/$$crate && rt fmt) || exit 1; done

check: ## proves one crate over what earlier runs kept (CRATE=line_words)
	@cd crates/$(or $(CRATE),$(error give a crate, as make check CRATE=line_words)) && rt check

tour: ## plants a bug and shows how the checker refuses it (docs/PROOF.md)
	@tools/tour.sh

bench: ## runs the benchmarks
	@for figures in bench/*.sh; do echo "== $$figures"; $$figures || exit 1; done

memory: ## refuses each growth in turn to the programs that make test built
	@checks/memory.sh && checks/memory_bounds.sh && checks/refused_memory.sh

soak: ## many threads at one desk, at full size
	@checks/soak.sh

counts: ## compares the events that the server tells at its end with those of its clients
	@checks/counts.py

connections: ## real connections: slow readers, resets, 10,000 at once
	@for workers in 1 4; do checks/connections.py $$workers && checks/played.py $$workers && checks/mixed.py $$workers && checks/crowd.py $$workers || exit 1; done

record: ## plays what servers recorded that were stopped or killed, and compares what each client was sent
	@checks/record.py long 4 60 100 300
	@checks/record.py killed 5

hostile: ## 2,000 connections send what no client should, for five minutes with 1 and with 4 workers
	@for workers in 1 4; do checks/hostile.py $$workers || exit 1; done
