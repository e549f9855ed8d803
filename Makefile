# Two commands: `make run` runs the sample script, `make test` is the gate.
.PHONY: run test

run: crates/exercise/out/exercise
	@crates/exercise/out/exercise <samples/weir.script

# rt proves before it builds and runs, and takes over what has not changed since; this run has nothing to read
crates/exercise/out/exercise: FORCE
	@cd crates/exercise && rt run </dev/null >../../rt.log 2>&1 || { cat ../../rt.log; exit 1; }
	@rm -f rt.log

test:
	@.ci/run

.PHONY: FORCE
FORCE:
