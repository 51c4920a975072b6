# The program that runs a recorded shift, and the same in C, to be compared with it.
.PHONY: shift shift_check shift_times

SHIFT = ../target/bin/shift
# Ours for the machine itself.
OWN_SHIFT = $(SHIFT)
SHIFT_FILES = $(addprefix speed/shift/,main.c event.c answer.c)
SHIFTS = $(COMPILERS:%=$(OUT)/shift_%)
SHIFT_RUNS = $(OUT)/shift_runs

# It is proved and linked by rt, for x86-64; start.sh runs it on another machine.
shift: $(SHIFT)

$(SHIFT): $(CRATES_FILES)
	@./prove.sh shift
	@mkdir -p $(@D)
	@cp ../crates/shift/out/shift $@
	@echo "  $(@:../%=%): proved and written"

# The same for a machine that is not x86-64, to be timed there.
$(NATIVE)/shift: $(SHIFT) native.sh speed/shift/opens.c
	@./native.sh shift $@.o
	@gcc -O2 -o $@ $@.o speed/shift/opens.c
	@echo "  $(@:../%=%): proved and written"

# Ours and the C answer a log alike, and ours in little memory.
shift_check: $(OWN_SHIFT) $(OUT)/shift_times $(SHIFTS)
	@mkdir -p $(SHIFT_RUNS)
	@$(OUT)/shift_times 20000 0 $(SHIFT_RUNS) $(abspath $(OWN_SHIFT) $(SHIFTS))

# The same for many frames, and timed.
shift_times: $(OWN_SHIFT) $(OUT)/shift_times $(SHIFTS)
	@mkdir -p $(SHIFT_RUNS)
	@$(OUT)/shift_times 1000000 10 $(SHIFT_RUNS) $(abspath $(OWN_SHIFT) $(SHIFTS))

$(OUT)/shift_times: speed/shift/times.c
	@mkdir -p $(OUT)
	$(CC) $(CFLAGS) -o $@ $<

$(OUT)/shift_%: $(SHIFT_FILES) $(wildcard speed/shift/*.h) ../include/tmavolice.h $(LIB)
	@mkdir -p $(OUT)
	$* $(CFLAGS) $(LDFLAGS) -o $@ $(filter %.c %.a,$^)
