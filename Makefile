# The C side: the desk command, its example, the comparison with the second emulator, and the measurements.
#   make demo            builds what is missing, runs the main job on the example book, and writes its report
#   make test            all tests of the C side; the last line tells how many passed and failed
#   make test-sanitized  the same with the address and undefined-behaviour sanitizers, with fewer events
#   make recording       writes docs/debugger.txt, a recorded session of desk debug over the example
#   make fuzz            bad input in bulk, sanitized, for SECONDS (60); make fuzz SECONDS=600 SEED=7 other inputs, for longer
#   make wrong           tries every wrong answer by itself, over the proved crates; make wrong CRATE=sh_map those of one crate
#   make bench           speed beside the second emulator, natively; make bench BEFORE=old/libhost.a also beside an
#                        earlier library, an archive or object for this processor
#   make stack           how many bytes of stack each call takes, natively; with BEFORE= also in an earlier library
#   make install         puts the desk, the header, the archive, galhoveia.pc, the manual pages and the examples below
#                        PREFIX (/usr/local), in a package's folder DESTDIR if that is given; make uninstall removes them
CC = gcc
CXX = g++
STRICT = -Wall -Wextra -pedantic
CFLAGS = -O2 $(STRICT)
SANITIZE = -fsanitize=address,undefined -fno-sanitize-recover=all -fno-omit-frame-pointer

# What is missing is told before anything starts that needs it. What is built can be installed without it.
ifneq ($(filter-out clean uninstall $(if $(wildcard build/plain/desk),install),$(or $(MAKECMDGOALS),all)),)
MISSING := $(shell tests/missing.sh rt $(firstword $(CC)) $(firstword $(CXX)))
ifneq ($(MISSING),)
$(error $(MISSING))
endif
endif

EVENTS = 20000000
SANITIZED_EVENTS = 1000000
DRAWS = 200
SANITIZED_DRAWS = 20
FUZZ_INPUTS = 1000000
BOOK = examples/dispatcher.book

# The proved library. Another archive with the same calls can be tested by make LIB=...
LIB = build/libhost.a

# The library holds x86-64 code. On another processor what links with it is compiled for x86-64 by the kit's compiler,
# with the system's headers, and runs under the kit's emulator; the sanitized build is native, with a stand-in for the
# library, and so is the bench, with the proved library compiled for that processor. The archive runs on every x86-64 of
# the last ten years; what this one allows beyond can be measured too, by make bench BENCH_LIB=build/bench/host.o, and what
# Rattle's own compiler makes in the place of clang, at a level from 0 to 3, by BENCH_LIB=build/bench/host-O2.o
ifeq ($(shell uname -m),x86_64)
LINKED_CC = $(CC)
LINKED_CXX = $(CXX)
LINK_TO = $(CC) -o
SANITIZED_LIB = $(LIB)
BENCH_LIB = $(LIB)
# The stack that the header tells of is read off x86-64 code.
STACK_TEST = "tests/stack.sh $(LIB) $(STACK_MOST) '$(CC)' $(STACK)"
STACK_MOST = $(shell sed -n 's/^.define GALHOVEIA_STACK_BYTES_MOST \([0-9]*\).*/\1/p' desk/galhoveia.h)
else
KIT = $(abspath $(dir $(realpath $(shell command -v rt)))/../on/$(shell uname -m)/toolchain)
FOREIGN = --target=x86_64-linux-gnu -fPIE -isystem $(shell $(CC) -print-file-name=include) \
    -isystem /usr/include/$(shell $(CC) -print-multiarch) -isystem /usr/include
LINKED_CC = $(KIT)/bin/clang $(FOREIGN)
LINKED_CXX = $(KIT)/bin/clang --driver-mode=g++ $(FOREIGN)
LINK_TO = tests/link-foreign.sh $(KIT)
SANITIZED_LIB = build/sanitized/libstandin.a
BENCH_LIB = build/bench/host.o
endif
LINK = $(LINK_TO) $@ $^

CRATES = crates.txt $(wildcard crates/*/src/*.rt)
SECOND = second/second.c second/two.c second/search.c second/instruction.c second/listing.c second/xref.c
DESK = $(wildcard desk/*.c)
COMPARE = $(wildcard tests/compare*.c) tests/support.c tests/lending.c tests/counting.c tests/machines.c tests/forms.c
READERS = desk/attempt.c desk/files.c desk/progress.c desk/refusal.c desk/texts.c
TEXT = tests/text.c desk/assembler.c desk/listing.c desk/mnemonics.c $(READERS)
PAGE = $(wildcard tests/page*.c) $(READERS)
BENCH = $(wildcard bench/*.c) $(READERS)
STACK = $(patsubst %.c,build/native/objects/%.o,tests/stack.c tests/counting.c tests/machines.c)
FUZZ = $(wildcard tests/fuzz*.c) tests/counting.c $(filter-out desk/main.c,$(DESK))
TRIALS = tests/trials.c tests/counting.c tests/machines.c tests/forms.c
FOLLOWED = $(wildcard tests/followed*.c) tests/counting.c tests/machines.c
HEADERS = $(wildcard bench/*.h desk/*.h tests/*.h second/*.h)

all: desk

archive: $(LIB)

build/libhost.a: $(CRATES)
	@mkdir -p $(dir $@)
	cd crates/host_c && rt lib
	cp crates/host_c/out/libhost_c.a $@

build/bench/host.o: bench/native.sh $(CRATES)
	@mkdir -p $(dir $@)
	bench/native.sh $@

build/bench/host-O%.o: bench/native.sh $(CRATES)
	@mkdir -p $(dir $@)
	bench/native.sh $@ -O$*

desk: build/plain/desk

demo: build/plain/desk
	build/plain/desk demo examples
	@echo
	@echo "6. All of it on one page, for the inspector: open it in a browser, or print it"
	@echo
	build/plain/desk report $(BOOK) --script examples/dispatcher.script --stop 010 --digits 2 \
	    --out build/dispatcher.html --force

RECORDED = debug examples/dispatcher.book --script examples/dispatcher.script --digits 2 --echo

recording: build/plain/desk
	build/plain/desk $(RECORDED) <examples/dispatcher.debug >docs/debugger.txt 2>&1

# ---- Objects: linked with the library, native, native with sanitizers, and native for the bench ----

build/plain/objects/%.o: %.c $(HEADERS)
	@mkdir -p $(dir $@)
	$(LINKED_CC) -std=c11 $(CFLAGS) $(DEFINES) -c -o $@ $<

build/plain/objects/%.o: %.cpp $(HEADERS)
	@mkdir -p $(dir $@)
	$(LINKED_CXX) -std=c++11 $(CFLAGS) -c -o $@ $<

build/native/objects/%.o: %.c $(HEADERS)
	@mkdir -p $(dir $@)
	$(CC) -std=c11 $(CFLAGS) $(DEFINES) -c -o $@ $<

build/sanitized/objects/%.o: %.c $(HEADERS)
	@mkdir -p $(dir $@)
	$(CC) -std=c11 $(CFLAGS) $(SANITIZE) $(DEFINES) -c -o $@ $<

build/bench/objects/%.o: %.c $(HEADERS)
	@mkdir -p $(dir $@)
	$(CC) -std=c11 -O3 $(STRICT) $(DEFINES) -c -o $@ $<

# The commit that the desk is made of goes into one object of each kind, which is made anew only where it changes.
MADE = $(foreach kind,plain native sanitized,build/$(kind)/objects/desk/made.o)

build/commit: asked
	@mkdir -p $(dir $@)
	@desk/commit.sh >$@.new
	@if cmp -s $@.new $@; then rm $@.new; else mv $@.new $@; fi

$(MADE): DEFINES = -DCOMMIT='"$(shell cat build/commit)"'
$(MADE): build/commit

build/bench/objects/bench/sides.o: DEFINES = $(if $(BEFORE),-DBENCH_BEFORE)
build/bench/objects/bench/sides.o: asked

# A library that is measured, now and before, is linked at four offsets (bench/sides.h): what puts it there, and copies
# of it whose calls have names of their own; everything else in a copy stays its own.
OFFSETS = 0 1 2 3
MEASURED = fresh run step list level picture listing_write listing_read run_two xref_build xref_list xref_replace

build/bench/offset%.o:
	@mkdir -p $(dir $@)
	printf '.section .text.offset, "ax"\n.p2align 6\n.skip 64 + 16 * %s\n' $* | $(CC) -c -Wa,--noexecstack -x assembler -o $@ -

COPY = ld -r -o $@ $< --whole-archive $(1) && \
    objcopy $(foreach call,$(MEASURED),--redefine-sym galhoveia_$(call)=$(2)$*_$(call)) $@ && \
    objcopy --wildcard --keep-global-symbol='$(2)$*_*' $@

build/bench/now%.o: build/bench/offset%.o $(BENCH_LIB) asked
	$(call COPY,$(BENCH_LIB),now)

build/bench/before%.o: build/bench/offset%.o $(BEFORE) asked
	$(call COPY,$(BEFORE),before)

build/sanitized/libstandin.a: $(patsubst %.c,build/sanitized/objects/%.o,tests/standin.c $(SECOND))
	rm -f $@
	ar rcs $@ $^

# ---- Programs ----

build/plain/desk: $(DESK:%.c=build/plain/objects/%.o) $(LIB)
	$(LINK)

build/plain/compare: $(patsubst %.c,build/plain/objects/%.o,$(COMPARE) $(SECOND)) $(LIB)
	$(LINK)

# Linked each time, so that it has the libraries that were asked for.
build/bench/measure: $(patsubst %.c,build/bench/objects/%.o,$(BENCH) $(SECOND)) $(BENCH_LIB) \
    $(OFFSETS:%=build/bench/now%.o) $(if $(BEFORE),$(OFFSETS:%=build/bench/before%.o))
	$(CC) -o $@ $^

build/plain/header: build/plain/objects/tests/header.o $(LIB)
	$(LINK)

build/plain/header-cpp: build/plain/objects/tests/header-cpp.o $(LIB)
	$(LINK)

build/plain/text: $(patsubst %.c,build/plain/objects/%.o,$(TEXT) second/instruction.c) $(LIB)
	$(LINK)

build/native/trials: $(patsubst %.c,build/native/objects/%.o,$(TRIALS) $(SECOND))
	$(CC) -o $@ $^

build/native/followed: $(patsubst %.c,build/native/objects/%.o,$(FOLLOWED) $(SECOND))
	$(CC) -o $@ $^

build/native/page-checker: $(patsubst %.c,build/native/objects/%.o,$(PAGE) $(SECOND))
	$(CC) -o $@ $^

build/native/forgetful: $(patsubst %.c,build/native/objects/%.o,$(DESK) tests/forgetful.c tests/standin.c $(SECOND))
	$(CC) -Wl,--wrap=galhoveia_list -o $@ $^

build/native/deaf: $(patsubst %.c,build/native/objects/%.o,$(DESK) tests/deaf.c tests/standin.c $(SECOND))
	$(CC) -Wl,--wrap=galhoveia_step -o $@ $^

build/native/torn: $(patsubst %.c,build/native/objects/%.o,$(DESK) tests/torn.c tests/standin.c $(SECOND))
	$(CC) -Wl,--wrap=galhoveia_listing_write -o $@ $^

build/native/stale: $(patsubst %.c,build/native/objects/%.o,$(DESK) tests/stale.c tests/standin.c $(SECOND))
	$(CC) -Wl,--wrap=galhoveia_xref_replace -o $@ $^

build/native/looped: $(patsubst %.c,build/native/objects/%.o,$(DESK) tests/looped.c tests/standin.c $(SECOND))
	$(CC) -Wl,--wrap=galhoveia_xref_build -o $@ $^

build/native/slow: $(patsubst %.c,build/native/objects/%.o,$(DESK) tests/slow.c tests/standin.c $(SECOND))
	$(CC) -Wl,--wrap=fsync -o $@ $^

build/native/terminal: build/native/objects/tests/terminal.o
	$(CC) -o $@ $^

build/sanitized/desk: $(DESK:%.c=build/sanitized/objects/%.o) $(SANITIZED_LIB)
	$(CC) $(SANITIZE) -o $@ $^

build/sanitized/compare: $(patsubst %.c,build/sanitized/objects/%.o,$(COMPARE) $(SECOND)) $(SANITIZED_LIB)
	$(CC) $(SANITIZE) -o $@ $^

build/sanitized/text: $(patsubst %.c,build/sanitized/objects/%.o,$(TEXT) second/instruction.c) $(SANITIZED_LIB)
	$(CC) $(SANITIZE) -o $@ $^

build/sanitized/page-checker: $(patsubst %.c,build/sanitized/objects/%.o,$(PAGE) $(SECOND))
	$(CC) $(SANITIZE) -o $@ $^

build/sanitized/fuzz: $(FUZZ:%.c=build/sanitized/objects/%.o) $(SANITIZED_LIB)
	$(CC) $(SANITIZE) -o $@ $^

# ---- Tests ----

# Desks with a fault in them, which they must find.
FAULTY_DESKS = build/native/forgetful build/native/deaf build/native/torn build/native/stale build/native/looped

test: build/plain/header build/plain/header-cpp build/plain/desk build/plain/compare build/plain/text \
    build/native/trials build/native/slow build/native/terminal build/native/followed build/native/page-checker \
    $(STACK) $(FAULTY_DESKS)
	@tests/all.sh tests/newcomer.sh "tests/header.sh $(CC) $(CXX)" build/plain/header build/plain/header-cpp \
	    build/plain/text "tests/desk.sh build/plain/desk $(FAULTY_DESKS)" \
	    "tests/debug.sh build/plain/desk build/native/forgetful" \
	    "tests/trace.sh build/plain/desk build/native/deaf build/native/followed $(DRAWS)" \
	    "tests/report.sh build/plain/desk build/native/page-checker" $(STACK_TEST) \
	    "tests/terminal.sh build/plain/desk build/native/slow build/native/terminal" "tests/readme.sh build/plain/desk" \
	    "tests/install.sh '$(LINKED_CC)' '$(LINKED_CXX)' '$(LINK_TO)' $(LIB)" \
	    "build/native/trials build/trials" \
	    "tests/beside.sh 'build/plain/compare calls --trials build/trials' 'build/plain/compare runs --book $(BOOK) --events $(EVENTS)'"

# A finding ends with 99, which no command of the desk does. Leaks are not looked for: every command would take seconds
# to end, and none lives long.
SANITIZED = ASAN_OPTIONS=detect_leaks=0:exitcode=99 UBSAN_OPTIONS=exitcode=99

test-sanitized: build/sanitized/desk build/sanitized/compare build/sanitized/text build/sanitized/fuzz \
    build/sanitized/page-checker build/native/trials build/native/followed $(FAULTY_DESKS)
	@$(SANITIZED) tests/all.sh build/sanitized/text \
	    "tests/desk.sh build/sanitized/desk $(FAULTY_DESKS)" \
	    "tests/debug.sh build/sanitized/desk build/native/forgetful" \
	    "tests/trace.sh build/sanitized/desk build/native/deaf build/native/followed $(SANITIZED_DRAWS)" \
	    "tests/report.sh build/sanitized/desk build/sanitized/page-checker" \
	    "build/sanitized/fuzz examples --inputs $(FUZZ_INPUTS)" \
	    "build/native/trials build/trials" \
	    "tests/clean.sh build/sanitized/compare calls --trials build/trials --machines 2 --cell-stride 200 --text-stride 10 --xref-stride 20" \
	    "tests/clean.sh build/sanitized/compare runs --book $(BOOK) --events $(SANITIZED_EVENTS) --cell-stride 20"

SECONDS = 60
SEED = 1

fuzz: build/sanitized/fuzz
	@$(SANITIZED) build/sanitized/fuzz examples --seconds $(SECONDS) --seed $(SEED)

# ---- Installing ----

PREFIX = /usr/local

build/man/desk.1: build/plain/desk
	@mkdir -p $(dir $@)
	build/plain/desk manual >$@.new && mv $@.new $@

build/man/galhoveia.3: desk/manual.awk desk/galhoveia.h
	@mkdir -p $(dir $@)
	awk -f desk/manual.awk desk/galhoveia.h >$@.new && mv $@.new $@

install: build/plain/desk $(LIB) build/man/desk.1 build/man/galhoveia.3
	@desk/install.sh install '$(PREFIX)' '$(DESTDIR)' $(LIB)

uninstall:
	@desk/install.sh uninstall '$(PREFIX)' '$(DESTDIR)' $(LIB)

wrong:
	@tests/wrong.sh $(CRATE)

bench: build/bench/measure
	@echo "natively on $(shell uname -m); the second emulator is built with -O3"
	@build/bench/measure

stack: $(STACK) $(BENCH_LIB)
	@tests/stack.sh $(BENCH_LIB) - "$(CC)" $(STACK)
	@$(if $(BEFORE),echo; echo "before:"; tests/stack.sh $(BEFORE) - "$(CC)" $(STACK))

clean:
	rm -rf build

.PHONY: all archive desk demo recording test test-sanitized fuzz install uninstall wrong bench build/bench/measure stack asked clean
.SECONDARY:
