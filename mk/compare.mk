# Barkruffle beside the two Rust files that it carries over (compare/README.md). They stand beside the repository, or
# where AYA_OBJ_SRC says: a folder with src/relocation.rs and src/btf/info.rs.
CARGO ?= cargo
AYA_OBJ_SRC ?= ../shared/docs/src
COMPARE = target/compare/release/compare

.PHONY: compare compare-short compare-build bench-compare

compare-build: lib
	cd compare && GCC="$(GCC)" AYA_OBJ_SRC=$(abspath $(AYA_OBJ_SRC)) $(CARGO) build --quiet --offline --locked --release --target-dir ../target/compare

# A million objects, and each fault put into our answers on purpose.
compare: compare-build
	$(COMPARE) --objects 1000000
	$(COMPARE) --bites --objects 2000

# The same on 20,000; without the Rust files or cargo it says so and is left out.
ifeq ($(wildcard $(AYA_OBJ_SRC)/src/relocation.rs),)
compare-short:
	@echo 'compare-short: no Rust files in $(AYA_OBJ_SRC), the comparison with them is left out'
else ifeq ($(shell command -v $(CARGO)),)
compare-short:
	@echo 'compare-short: no cargo here, the comparison with the Rust files is left out'
else
compare-short: compare-build
	$(COMPARE) --brief --objects 20000
	$(COMPARE) --bites --objects 2000
endif

# Figures, not a test.
bench-compare: compare-build
	$(COMPARE) --bench
