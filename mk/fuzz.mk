# Fuzzing of the C face.
# make fuzz        libFuzzer for FUZZ_TIME seconds, from seeds; fails on a finding, and where an entry did not give every
#                  number that the header says it can
# make test-fuzz   the same harness without clang: pseudo-random inputs, a few seconds; and fuzz-bites
# make fuzz-bites  the harness against wrong stand-ins of the entries, each of which it has to notice
# make fuzz-reached  how many of the archive's instructions the seeds and some inputs reach: figures, not a test
FUZZ_TIME ?= 120
FUZZ_RUNS ?= 25000
FUZZ_SEED ?= 1
CLANG ?= clang
FUZZ_OUT = target/fuzz
FUZZ_HARNESS = fuzz/entries.c fuzz/cut.c fuzz/images.c fuzz/lend.c fuzz/long.c fuzz/model.c
FUZZ_PLAIN = fuzz/drive.c $(FUZZ_HARNESS)
CFLAGS_FUZZ = -std=c11 -O2 -g -Wall -Wextra -Werror -Iinclude
# clang does not define that name by itself; it turns on the counters by which the fuzzer sees answers and places.
SANITIZERS = -DFUZZING_BUILD_MODE_UNSAFE_FOR_PRODUCTION -fsanitize=fuzzer,address,undefined -fno-sanitize-recover=undefined
OPEN = (
FUZZ_ENTRIES := $(shell sed -n 's/^\(uint32_t\|uint64_t\|struct barkruffle_part\) \(barkruffle_[a-z_]*\)$(OPEN)$$/\2/p' include/barkruffle.h)

.PHONY: fuzz test-fuzz fuzz-bites fuzz-reached fuzz-named fuzz-tools

# Every declared entry is named by the harness, in its code and as a string. (One without a wrong stand-in fails fuzz-bites,
# which then does not link.)
fuzz-named:
	@mkdir -p $(FUZZ_OUT)
	@test -n "$(FUZZ_ENTRIES)"
	@for f in $(FUZZ_ENTRIES); do \
	  sed 's/"[^"]*"//g' fuzz/entries.c | grep -qw "$$f" && grep -q "\"$$f\"" fuzz/entries.c || \
	  { echo "fuzz: fuzz/entries.c does not call $$f"; exit 1; }; done

$(FUZZ_OUT)/entries: fuzz/main.c $(FUZZ_PLAIN) fuzz/fuzz.h fuzz/model.h include/barkruffle.h mk/fuzz.mk lib | fuzz-named
	$(GCC) $(CFLAGS_FUZZ) -o $@ fuzz/main.c $(FUZZ_PLAIN) $(ARCHIVE)

$(FUZZ_OUT)/wrong: fuzz/wrong.c $(FUZZ_PLAIN) fuzz/fuzz.h fuzz/model.h include/barkruffle.h mk/fuzz.mk lib | fuzz-named
	$(GCC) $(CFLAGS_FUZZ) -o $@ fuzz/wrong.c $(FUZZ_PLAIN) $(ARCHIVE) $(FUZZ_ENTRIES:%=-Wl,--wrap=%)

test-fuzz: fuzz-bites $(FUZZ_OUT)/entries
	$(FUZZ_OUT)/entries $(FUZZ_RUNS) $(FUZZ_SEED)

fuzz-bites: $(FUZZ_OUT)/wrong
	$(FUZZ_OUT)/wrong

fuzz-tools:
	@command -v $(CLANG) > /dev/null || { echo "fuzz: no $(CLANG) here; it is in Debian's package clang"; exit 1; }
	@command -v python3 > /dev/null || { echo "fuzz: no python3 here; it is in Debian's package python3"; exit 1; }
	@mkdir -p $(FUZZ_OUT)
	@echo 'int LLVMFuzzerTestOneInput(const char *p, long n) { return !p && n; }' | \
	  $(CLANG) $(SANITIZERS) -o $(FUZZ_OUT)/nothing -x c - 2> $(FUZZ_OUT)/nothing.log || \
	  { cat $(FUZZ_OUT)/nothing.log; echo "fuzz: $(CLANG) has no libFuzzer or sanitizers here; they are in Debian's package" \
	    "libclang-rt-$$($(CLANG) -dumpversion | cut -d. -f1)-dev"; exit 1; }

fuzz: fuzz-tools lib fuzz-named
	$(CLANG) $(CFLAGS_FUZZ) $(SANITIZERS) -o $(FUZZ_OUT)/fuzzer fuzz/mutate.c $(FUZZ_HARNESS) $(ARCHIVE)
	mkdir -p $(FUZZ_OUT)/corpus $(FUZZ_OUT)/findings
	python3 fuzz/seeds.py $(FUZZ_OUT)/seeds
	$(FUZZ_OUT)/fuzzer -max_total_time=$(FUZZ_TIME) -max_len=8192 -timeout=20 -print_final_stats=1 \
	  -artifact_prefix=$(FUZZ_OUT)/findings/ $(FUZZ_OUT)/corpus $(FUZZ_OUT)/seeds > $(FUZZ_OUT)/log 2>&1 || \
	  { tail -n 60 $(FUZZ_OUT)/log; echo "fuzz: a finding, in $(FUZZ_OUT)/findings"; exit 1; }
	@grep -a -E '^(stat::|Done|fuzz:)' $(FUZZ_OUT)/log
	@grep -a ' cov: ' $(FUZZ_OUT)/log | tail -n 1
	@grep -qa '^fuzz: every number of every entry was reached$$' $(FUZZ_OUT)/log

fuzz-reached: lib fuzz-named
	python3 fuzz/seeds.py $(FUZZ_OUT)/seeds
	$(GCC) $(CFLAGS_FUZZ) -no-pie -o $(FUZZ_OUT)/reached fuzz/main.c $(FUZZ_PLAIN) $(ARCHIVE)
	valgrind -q --tool=callgrind --dump-instr=yes --compress-pos=no --callgrind-out-file=$(FUZZ_OUT)/reached.out \
	  $(FUZZ_OUT)/reached 3000 $(FUZZ_SEED) $(FUZZ_OUT)/seeds/*
	@python3 fuzz/reached.py $(FUZZ_OUT)/reached $(FUZZ_OUT)/reached.out $(FUZZ_ENTRIES)
