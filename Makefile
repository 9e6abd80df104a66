# make test     the gate (tools/gate, as .ci/run runs it): rt ci proves every crate from nothing, tries the must-fail edits and
#               runs the programs; then the C programs, the comparison with the Rust files, the fuzz harness and the tool in
#               short runs, over what was proved. Its last line is rt ci's own
# make demo     builds the tool and the archive; links and examines the sample with the tool, runs the example daemon
# make lib      target/staticlib/libbarkruffle.a, for C
# make bark     target/c/bark, the tool
# make edits    the must-fail edits that stand outside the gate; EDITS_OF='linker walk' for those of some crates
# make mutants  whether the stored cases tell apart the readings of documents 01 and 02 that are wrong; needs python3
# make elsewhere  images of another linker and their faults through the examiner, made anew from ELSEWHERE_SEED; needs python3
# make bench    times of both steps and of the examiner, and ratios to the crate's: figures, not a test
# make compare  the comparison with the Rust files, at length
# make fuzz     the fuzz harness under libFuzzer, for FUZZ_TIME seconds; needs clang
.PHONY: test demo bench edits edits-apply mutants
.DEFAULT_GOAL := test
# One rt works in a crate at a time.
.NOTPARALLEL:

include mk/c.mk
include mk/compare.mk
include mk/fuzz.mk
include mk/bark.mk

test:
	@RT="$(RT)" bash tools/gate

demo: bark $(C_OUT)/examples/daemon
	@echo
	@sh examples/bark.sh $(BARK)
	@echo
	@echo "The example daemon (examples/daemon.c): a map step, links, two readers, an examination, through the C entries."
	@$(C_OUT)/examples/daemon

edits: edits-apply
	@RT="$(RT)" sh tools/edits $(EDITS_OF)

# Proves nothing: each edit, in the gate or outside it, still names text that is there once.
edits-apply:
	@sh tools/edits --apply

mutants:
	python3 tools/mutants.py

bench: bench-c bench-compare
