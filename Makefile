# `make run` proves and builds the console and runs it on the example; `make test` is the gate.
.PHONY: run test

# `rt run` builds the program and runs it once; it is given no commands there, and the example's afterwards.
run:
	cd crates/console && rt run < /dev/null
	@echo "--- commands"
	@cat example/commands
	@echo "--- printed"
	@cd example && ../crates/console/out/console < commands

test:
	@tools/gate
