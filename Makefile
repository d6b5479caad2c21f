.PHONY: run test

# Proves and builds the program, and runs it on an example.
run:
	cd crates/depot && rt run >/dev/null
	crates/depot/out/depot examples/tank-7.journal

# The gate: proofs, must-fail edits, compile refusals, programs and tests.
test:
	.ci/run
