# make run: the README's sample request through the bench program, request and response shown as trees of items.
# make test: the gate.
# make quick: what changed since the last commit (SINCE=COMMIT: since that one), in minutes: see tools/quick.
SHELL := /bin/bash
.SHELLFLAGS := -eu -o pipefail -c

.PHONY: run test quick

run:
	tools/programs
	@echo "request:"
	@tools/run tree < crates/bench/stdin
	@echo "response:"
	@tools/run bench < crates/bench/stdin
	@printf '%b' "$$(tools/run bench < crates/bench/stdin | sed 's/../\\x&/g')" | tools/run tree

test:
	.ci/run

quick:
	tools/quick $(SINCE)
