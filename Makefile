# What each target takes is in docs/gate.md.
.PHONY: demo build test install package bench proofs

PREFIX ?= /usr/local

# Builds without proofs and runs the main job: a count of 3 is spent, then the next term acts.
demo:
	cd crates/failreg && rt try -- sim --echo < ../../examples/first_count.in

# Proves and builds the program, and the library for C and Rust.
build:
	cd crates/failreg && rt run -- --version
	embedding/build

# All of CI.
test:
	tools/ci

# Builds the package and installs it below PREFIX.
install: package
	rm -rf dist/unpacked && mkdir dist/unpacked && tar xf dist/failreg-*-x86_64-linux.tar.gz -C dist/unpacked
	dist/unpacked/failreg-*/install.sh "$(PREFIX)"

package:
	tools/package

bench:
	bench/run.py

# What is claimed to be proved, with the definitions that state it, and what is trusted.
proofs:
	@tools/proofs
