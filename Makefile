# make run      run the event log of document 01's example through slotbook, and print its lines; with LOG=FILE a log that FILE has as text
# make test     the gate: every proof, every must-fail edit, every comparison; its last line is the sum
# make compare  slotbook beside the second program on many more logs: LOGS=2000 well made, BAD=5000 ill made, from the seed FROM on
# make air      our packets as sound, heard by two receivers that nobody here wrote, Debian's direwolf and gnuais; it installs them
# make bench    packets and messages, written and read, beside plain C, the best C by hand and the second program, as ratios; choosing; and a
#               day at sea
# make stack    the stack of each public call, in a program that makes all of them, and of each C call of the board, as a table
#
# Rattle compiles for x86-64. Elsewhere what links with it is compiled for x86-64 too and runs under an emulator.

MACHINE := $(shell uname -m)
ifeq ($(MACHINE),x86_64)
X86_CC := cc
X86_RUN :=
SLOTBOOK_RUN :=
X86_LINK :=
WHERE := native x86-64
else
X86_CC := x86_64-linux-gnu-gcc
X86_RUN := qemu-x86_64
# slotbook is linked with the C library as it is on x86-64, which Debian's cross compiler brings
SLOTBOOK_RUN := qemu-x86_64 -L /usr/x86_64-linux-gnu
X86_LINK := -static
WHERE := x86-64 under an emulator on $(MACHINE)
endif

OPT := -O2
WARN := -std=c11 -Wall -Wextra -Werror -pedantic
SANITIZE := -O1 -g -fsanitize=address,undefined -fno-sanitize-recover=all

SLOTBOOK := target/bin/slotbook
BOARD := target/staticlib/libboard.a
TESTFACE := target/staticlib/libtestface.a
COMMON := $(addprefix second/,random.c stream.c lines.c trial.c report.c tally.c run.c)
PACKET := $(addprefix second/,packet.c unstuffed.c damage.c refusals.c faults.c cases.c vectors.c) $(COMMON)
MESSAGE := $(addprefix second/,message.c message_vectors.c message_fields.c message_lengths.c message_cases.c message_run.c occurrences.c) \
	$(COMMON)
BOOK := $(addprefix second/,book.c hearing.c rows.c message.c book_case.c calls_by_hand.c marks_by_hand.c records_by_hand.c \
	refusals_by_hand.c order_by_hand.c rows_by_hand.c strange_by_hand.c strange_at_random.c book_model.c book_agrees.c book_said.c \
	book_calls.c book_sequences.c occurrences.c random.c report.c)
CHOOSING := $(addprefix second/,choosing.c windows.c reporting.c book.c hearing.c rows.c message.c book_case.c choosing_case.c \
	windows_by_hand.c window_slots_by_hand.c candidates_by_hand.c choices_by_hand.c choosing_refusals_by_hand.c reports_by_hand.c all_draws.c \
	strange_book.c strange_choices.c strange_reports.c book_model.c book_agrees.c model_windows.c choosing_model.c choosing_notes.c \
	choosing_drawn.c choosing_calls.c choosing_sequences.c drawn_position.c occurrences.c random.c report.c)
RUN_BOOK := $(addprefix second/,book.c hearing.c rows.c message.c choosing.c windows.c)
RUN_LOG := $(addprefix second/,journal.c log_record.c log_streams.c) $(RUN_BOOK)
LOG_TEXT := $(addprefix second/,record_text.c log_record.c log_streams.c lines.c)
LOG_MAKING := $(addprefix second/,logs.c log_maker.c log_maker_hearing.c log_maker_choosing.c log_maker_strange.c drawn_position.c book_case.c \
	random.c report.c)
JOURNAL := $(sort $(RUN_LOG) $(LOG_TEXT) $(LOG_MAKING) $(addprefix second/,log_case.c log_records_by_hand.c log_lines_by_hand.c \
	log_cuts_by_hand.c log_text_by_hand.c log_notes.c log_sequences.c model_windows.c occurrences.c))
HEADERS := $(wildcard include/*.h second/*.h bench/*.h)
TESTS := build/test_packet build/test_message build/test_book build/test_choosing build/test_journal
LOG_PROGRAMS := build/second_slotbook build/logtext build/makelog
PROGRAMS := $(SLOTBOOK) build/example build/page $(TESTS) $(addsuffix _sanitized,$(TESTS)) $(LOG_PROGRAMS) build/compare_packet build/compare_message
BENCHES := build/bench_packet build/bench_message build/bench_choosing build/makeday build/bench_slotbook $(SLOTBOOK)

# make compare
LOGS := 2000
BAD := 5000
FROM := 1001

.PHONY: run test compare air bench stack tools programs clean

run: tools $(SLOTBOOK) $(if $(LOG),build/logtext)
	@$(if $(LOG),build/logtext to-log <$(LOG) |) $(SLOTBOOK_RUN) $(SLOTBOOK) $(if $(LOG),,<crates/slotbook/stdin)

test: tools
	@X86_RUN="$(X86_RUN)" SLOTBOOK_RUN="$(SLOTBOOK_RUN)" tests/run

compare: tools $(SLOTBOOK) $(LOG_PROGRAMS)
	@tests/logs $(FROM) $(LOGS) $(BAD) $(SLOTBOOK_RUN) $(SLOTBOOK)

air: tools build/example build/air_audio
	@tests/air vectors $(X86_RUN) build/example

bench: tools $(BENCHES)
	@$(X86_RUN) build/bench_packet "$(WHERE)"
	@echo
	@$(X86_RUN) build/bench_message "$(WHERE)"
	@echo
	@$(X86_RUN) build/bench_choosing "$(WHERE)"
	@echo
	@bench/day "$(WHERE)" "$(SLOTBOOK_RUN) $(SLOTBOOK)" "$(X86_RUN) build/bench_slotbook"

stack: tools $(BOARD) $(SLOTBOOK)
	@tests/stack

tools:
	@mkdir -p build
	@tests/tools $(MACHINE)

programs: $(PROGRAMS)

# What the crates say, without what rt keeps in their out/.
RATTLE := crates.txt $(shell find crates -name out -prune -o \( -name '*.rt' -o -name '*.antt' \) -print)

# A static library and a program stand in the out/ of their crate, which a later rt ci may take away. The C face of the board is exported by crate board_c.
$(BOARD): $(RATTLE)
	cd crates/board_c && rt lib
	@mkdir -p $(@D)
	cp crates/board_c/out/libboard_c.a $@

$(TESTFACE): $(RATTLE)
	cd crates/testface && rt lib
	@mkdir -p $(@D)
	cp crates/testface/out/libtestface.a $@

# rt run proves and links the program, and runs it once
$(SLOTBOOK): $(RATTLE)
	cd crates/slotbook && rt run <stdin >/dev/null
	@mkdir -p $(@D)
	cp crates/slotbook/out/slotbook $@

build/example: include/example.c $(HEADERS) $(BOARD)
	$(X86_CC) $(WARN) $(OPT) $(X86_LINK) -o $@ include/example.c $(BOARD)

# the program on the board's page
build/page.c: docs/BOARD.md
	sed -n '/^```c$$/,/^```$$/{//!p;}' $< >$@

build/page: build/page.c $(HEADERS) $(BOARD)
	$(X86_CC) $(WARN) $(OPT) -Iinclude $(X86_LINK) -o $@ $< $(BOARD)

build/air_audio: tests/air_audio.c
	cc $(WARN) $(OPT) -o $@ $< -lm

build/test_packet build/test_packet_sanitized: $(PACKET)
build/test_message build/test_message_sanitized: $(MESSAGE)
build/test_book build/test_book_sanitized: $(BOOK)
build/test_choosing build/test_choosing_sanitized: $(CHOOSING)
build/test_journal build/test_journal_sanitized: $(JOURNAL)
build/second_slotbook: second/slotbook.c $(RUN_LOG)
build/logtext: second/logtext.c $(LOG_TEXT)
build/makelog: second/makelog.c $(LOG_MAKING) $(RUN_LOG)
build/compare_packet: $(PACKET)
build/compare_message: $(MESSAGE)
build/bench_packet: bench/timing.c bench/plain_packet.c bench/table_packet.c second/packet.c
build/bench_message: bench/timing.c bench/plain_message.c bench/bytewise_message.c second/message.c

build/test_%_sanitized: second/test_%.c $(HEADERS)
	cc $(WARN) $(SANITIZE) -o $@ $(filter %.c,$^)

build/test_%: second/test_%.c $(HEADERS)
	cc $(WARN) $(OPT) -o $@ $(filter %.c,$^)

$(LOG_PROGRAMS): $(HEADERS)
	cc $(WARN) $(OPT) -o $@ $(filter %.c,$^)

build/compare_%: second/compare_%.c $(HEADERS) $(BOARD)
	$(X86_CC) $(WARN) $(OPT) $(X86_LINK) -o $@ $(filter %.c,$^) $(BOARD)

build/makeday: bench/makeday.c second/log_record.c second/log_streams.c second/message.c second/random.c $(HEADERS)
	cc $(WARN) $(OPT) -o $@ $(filter %.c,$^)

build/bench_slotbook: second/slotbook.c $(RUN_LOG) $(HEADERS)
	$(X86_CC) $(WARN) $(OPT) $(X86_LINK) -o $@ $(filter %.c,$^)

build/bench_choosing: bench/bench_choosing.c second/book.c second/choosing.c second/windows.c $(HEADERS) $(TESTFACE)
	$(X86_CC) $(WARN) $(OPT) -DFLAGS='"$(OPT)"' $(X86_LINK) -o $@ $(filter %.c,$^) $(TESTFACE)

build/bench_%: bench/bench_%.c $(HEADERS) $(BOARD)
	$(X86_CC) $(WARN) $(OPT) -DFLAGS='"$(OPT)"' $(X86_LINK) -o $@ $(filter %.c,$^) $(BOARD)

clean:
	rm -rf build target
