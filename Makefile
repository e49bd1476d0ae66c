.PHONY: try run test bench stress faults wrong-bodies

# Plays the first script by a program that is compiled without a proof: some two minutes on a new machine.
try:
	@./examples/try

# Builds the program and runs the first script in an empty folder.
run:
	@./examples/run first

# The merge gate: every proof, test, must-fail edit and program.
test:
	@./.ci/run

# What the tools, a run and the database cost, beside cat, wc and plain Rust. Builds the program first.
bench:
	@./bench/build
	@./bench/tools.sh crates/midas/out/midas
	@./bench/run.sh crates/midas/out/midas
	@./bench/odb.sh crates/midas/out/midas

# Many short sessions in threads, each of which is checked. Builds the program first.
stress:
	@./bench/build
	@./bench/threads.sh crates/midas/out/midas

# Each request for memory and each call on the system fails in turn, in a session and in the tools. Builds the program first.
faults:
	@./bench/build
	@./bench/faults.sh crates/midas/out/midas

# Each wrong body that the gate leaves out has to be refused: an hour of a processor.
wrong-bodies:
	@./bench/wrong_bodies.sh $$(ls crates/*/must-fail/*.md | cut -d/ -f2 | sort -u)
