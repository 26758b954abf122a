# Two commands: `make plan` prints a sending plan, `make test` runs every proof and test.
.PHONY: plan test

# The input that ships with the plan program, or another: make plan IN=file
IN ?= crates/plan/stdin

# What the check says goes to standard error, so that standard output has the plan alone.
plan:
	@test -r "$(IN)" || { echo "make plan: cannot read $(IN)" >&2; exit 1; }
	@echo "make plan: proving and building the plan program; minutes the first time, seconds after that" >&2
	@exec <"$(IN)"; cd crates/plan && rt run

test:
	@bash .ci/run
