.PHONY: run test soak

run:
	bash tools/run

test:
	bash .ci/run

# Holds drive and second against each other on COUNT fresh random commands, from the seed SEED on.
SEED ?= 1
COUNT ?= 1000000

soak:
	cd crates/drive && rt run </dev/null >/dev/null
	bash tools/place
	cargo build --quiet --release --offline --manifest-path second/Cargo.toml
	second/target/release/soak $(SEED) $(COUNT) target/bin/drive
