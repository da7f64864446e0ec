# The library for C. Proving and compiling it needs the Rattle toolchain; linking against it needs only a C compiler.
PREFIX ?= /usr/local
DESTDIR ?=
VERSION := 0.1.0
LIB := target/lib/libpetlumas.a
PC := target/lib/petlumas.pc
SOURCES := crates.txt $(shell find crates -path '*/out' -prune -o -name '*.rt' -print -o -name '*.antt' -print)

.PHONY: lib install test-c test-c-plain test-c-example test-c-sanitized test-c-valgrind bench

lib: $(LIB)

$(LIB): $(SOURCES)
	cd crates/hub_c && rt lib
	mkdir -p $(@D)
	cp crates/hub_c/out/libhub_c.a $@

install: lib
	printf '%s\n' 'prefix=$(PREFIX)' 'includedir=$${prefix}/include' 'libdir=$${prefix}/lib' '' \
	  'Name: petlumas' 'Description: The gas point register' 'Version: $(VERSION)' \
	  'Cflags: -I$${includedir}' 'Libs: -L$${libdir} -lpetlumas' > $(PC)
	install -d $(DESTDIR)$(PREFIX)/include $(DESTDIR)$(PREFIX)/lib/pkgconfig
	install -m 644 include/petlumas.h $(DESTDIR)$(PREFIX)/include
	install -m 644 $(LIB) $(DESTDIR)$(PREFIX)/lib
	install -m 644 $(PC) $(DESTDIR)$(PREFIX)/lib/pkgconfig

# The C program that plays journals, and its tests. VECTORS=FOLDER plays every FOLDER/NAME.in and compares with NAME.out.
CFLAGS ?= -O2 -g
STRICT := -std=c11 -Wall -Wextra -Wpedantic -Wconversion -Werror -Iinclude -Ihub -Ibench
SANITIZE := -fsanitize=address,undefined -fno-sanitize-recover=all
VALGRIND := valgrind -q --leak-check=full --error-exitcode=3
CASES := 10000
JOURNALS := hub/lines.in $(if $(VECTORS),$(wildcard $(VECTORS)/*.in),crates/replay/stdin)
HUB_SOURCES := hub/main.c hub/player.c hub/line.c hub/words.c
TEST_SOURCES := hub/functions.c hub/chance.c hub/words.c
DAMAGE_SOURCES := hub/damage.c hub/lent.c hub/images.c hub/conversions.c hub/batches.c $(TEST_SOURCES)
EDITIONS_SOURCES := hub/editions.c hub/checks.c hub/conversions.c $(TEST_SOURCES)
TRIALS_SOURCES := hub/trials.c hub/checks.c hub/lent.c hub/batches.c $(TEST_SOURCES)
BENCH_SOURCES := $(wildcard bench/*.c) hub/images.c hub/chance.c hub/words.c
HEADERS := include/petlumas.h $(wildcard hub/*.h bench/*.h)
BUILD_C = mkdir -p $(@D) && $(CC) $(STRICT) $(CFLAGS) $(filter %.c,$^) $(LIB) -o $@

test-c: test-c-plain test-c-example test-c-sanitized test-c-valgrind

test-c-plain: target/c/hub target/c/editions target/c/trials target/c/damage
	hub/test.sh target/c/hub $(JOURNALS)
	target/c/editions
	target/c/trials
	target/c/damage $(CASES)

# The README's example compiles and prints what its comment says.
test-c-example: target/c/example
	test "$$(target/c/example)" = '0 7'

# Only the C program is instrumented: what the library does outside a buffer is for valgrind and lent.c's pages.
test-c-sanitized: target/c/hub-sanitized target/c/editions-sanitized target/c/trials-sanitized target/c/damage-sanitized
	hub/test.sh target/c/hub-sanitized $(JOURNALS)
	target/c/editions-sanitized
	target/c/trials-sanitized
	target/c/damage-sanitized $(CASES)

test-c-valgrind: target/c/hub target/c/editions target/c/trials target/c/damage
	if command -v valgrind > /dev/null; then \
	  hub/test.sh '$(VALGRIND) target/c/hub' $(JOURNALS) && $(VALGRIND) target/c/editions && \
	  $(VALGRIND) target/c/trials && $(VALGRIND) target/c/damage $(CASES); \
	else echo 'valgrind is not installed: its tests are left out'; fi

bench: target/c/bench
	target/c/bench

target/c/hub: $(HUB_SOURCES) $(HEADERS) $(LIB)
	$(BUILD_C)

target/c/damage: $(DAMAGE_SOURCES) $(HEADERS) $(LIB)
	$(BUILD_C)

target/c/editions: $(EDITIONS_SOURCES) $(HEADERS) $(LIB)
	$(BUILD_C)

target/c/trials: $(TRIALS_SOURCES) $(HEADERS) $(LIB)
	$(BUILD_C)

target/c/example: target/c/example.c include/petlumas.h $(LIB)
	$(BUILD_C)

target/c/example.c: README.md
	mkdir -p $(@D)
	sed -n '/^```c$$/,/^```$$/{/^```/!p}' $< > $@

# Where plain C's functions happen to lie changes its times by up to 30 %, so each begins at a multiple of 64.
target/c/bench: $(BENCH_SOURCES) $(HEADERS) $(LIB)
	$(BUILD_C) -falign-functions=64

target/c/hub-sanitized: $(HUB_SOURCES) $(HEADERS) $(LIB)
	$(BUILD_C) $(SANITIZE)

target/c/damage-sanitized: $(DAMAGE_SOURCES) $(HEADERS) $(LIB)
	$(BUILD_C) $(SANITIZE)

target/c/editions-sanitized: $(EDITIONS_SOURCES) $(HEADERS) $(LIB)
	$(BUILD_C) $(SANITIZE)

target/c/trials-sanitized: $(TRIALS_SOURCES) $(HEADERS) $(LIB)
	$(BUILD_C) $(SANITIZE)
