.PHONY: demo test bench compare

TEXTS = examples/bakeries.txt examples/bakeries-otherwise.txt
EXAMPLE = target/example

# Proves the programs, which is quick once it is done, and plays the example of the bakeries.
demo: tools-needed
	@mkdir -p target
	@tools/programs > target/demo.log 2>&1 || { cat target/demo.log; exit 1; }
	@tools/example $(TEXTS) $(EXAMPLE)
	@tools/demo $(TEXTS) $(EXAMPLE)

# The gate: every crate proved, every must-fail edit refused, every program and test run, and then the programs played
# against the model.
test:
	@tools/gate

# How long the programs take on full sheets. They have to be built: run demo or test first.
bench: tools-needed
	@tools/bench

# Plays the built programs against an independent model in Rust, on some thousand seeded cases.
compare:
	@tools/compare

.PHONY: tools-needed
tools-needed:
	@command -v python3 > /dev/null || { apt-get update && apt-get install -y python3; } > /dev/null
