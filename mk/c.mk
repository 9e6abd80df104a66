# The archive for C, and the C programs that hold it to its header. The gate calls test-c after rt ci.
RT ?= rt
GCC ?= gcc
CFLAGS_C = -std=c99 -O2 -Wall -Wextra -Werror -Iinclude -Itests
ARCHIVE = target/staticlib/libbarkruffle.a
C_OUT = target/c

.PHONY: lib test-c elsewhere bench-c

lib:
	@RT="$(RT)" sh tools/archive barkruffle

$(C_OUT)/%: %.c tests/tables.h include/barkruffle.h lib
	mkdir -p $(dir $@)
	$(GCC) $(CFLAGS_C) -o $@ $< $(ARCHIVE) -pthread

test-c: $(C_OUT)/tests/abi $(C_OUT)/tests/stack $(C_OUT)/tests/examine $(C_OUT)/examples/daemon
	nm -g --defined-only $(ARCHIVE) | sed -n 's/.* T //p' | sort > $(C_OUT)/exported
	sed -n 's/^\(uint32_t\|uint64_t\|struct barkruffle_part\) \(barkruffle_[a-z_]*\)($$/\2/p' include/barkruffle.h | sort > $(C_OUT)/declared
	diff $(C_OUT)/declared $(C_OUT)/exported
	while read f; do grep -qw $$f tests/abi.c || { echo "test-c: tests/abi.c does not call $$f"; exit 1; }; done < $(C_OUT)/declared
	$(C_OUT)/tests/abi
	$(C_OUT)/tests/stack
	$(C_OUT)/tests/examine tests/examine.cases
	$(C_OUT)/examples/daemon > $(C_OUT)/daemon.out
	diff examples/daemon.out $(C_OUT)/daemon.out
	if command -v g++ > /dev/null; then \
	  echo '#include "barkruffle.h"' | g++ -Wall -Wextra -Werror -Iinclude -fsyntax-only -x c++ -; \
	else echo 'test-c: no g++ here, the header is not tried from C++'; fi
	if command -v valgrind > /dev/null; then \
	  valgrind -q --error-exitcode=1 --leak-check=full $(C_OUT)/tests/abi && \
	  valgrind -q --error-exitcode=1 --leak-check=full $(C_OUT)/examples/daemon > /dev/null; \
	else echo 'test-c: no valgrind here, runs under it left out'; fi

# Images of another linker (tools/elsewhere.py) and their faults, made anew: every fault of the first ELSEWHERE_WHOLE objects, one of each
# kind of the others.
ELSEWHERE_SEED ?= 1
ELSEWHERE_OBJECTS ?= 40
ELSEWHERE_WHOLE ?= 3
elsewhere: $(C_OUT)/tests/examine
	python3 tools/examine_cases.py --stream $(ELSEWHERE_SEED) $(ELSEWHERE_OBJECTS) $(ELSEWHERE_WHOLE) | $(C_OUT)/tests/examine -

# Figures, not a test.
BENCHES = $(C_OUT)/bench/link $(C_OUT)/bench/examine $(C_OUT)/bench/steps
$(BENCHES): bench/bench.h
bench-c: $(BENCHES)
	$(C_OUT)/bench/link
	$(C_OUT)/bench/examine
	$(C_OUT)/bench/steps
