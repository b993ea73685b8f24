# make        builds bench and runs it on the sample module
# make gate   runs the tests: what .ci/run does

.PHONY: run gate

run:
	cd crates/bench && rt run < ../../samples/ramp.bin

gate:
	.ci/run
