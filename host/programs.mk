# The programs that use the product through its header: the bench session, the example of docs/HOST.md, the rules for a switch, the ten
# lines of README.md, and two checks of the header, each as C and as C++.
.PHONY: run

HEADER = $(wildcard ../include/*.h)
STRICT = -O2 -Wall -Wextra -Werror -pedantic -I../include $(CROSS)

CHECKS = $(OUT)/header_c $(OUT)/names_c
CHECKS_CPP = $(CHECKS:%_c=%_cpp)

programs: $(OUT)/run $(OUT)/example $(OUT)/switch $(CHECKS) $(CHECKS_CPP) $(OUT)/ten.o

run: $(OUT)/run
	@$(START) $(OUT)/run

$(OUT)/run: $(wildcard run/*.c run/*.h)

$(OUT)/example: $(wildcard example/*.c example/*.h)

$(OUT)/switch: $(wildcard switch/*.c switch/*.h)

$(OUT)/header_c $(OUT)/header_cpp: header/check.c

$(OUT)/names_c $(OUT)/names_cpp: header/names.c

$(OUT)/run $(OUT)/example $(OUT)/switch $(CHECKS): $(HEADER) $(LIB)
	mkdir -p $(OUT)
	$(CC) -std=c99 $(STRICT) -o $@ $(filter %.c,$^) $(LIB)

$(CHECKS_CPP): $(HEADER) $(LIB)
	mkdir -p $(OUT)
	$(CXX) $(STRICT) -o $@ -x c++ $(filter %.c,$^) -x none $(LIB)

$(OUT)/ten.o: readme/ten.c $(HEADER)
	mkdir -p $(OUT)
	$(CC) -std=c99 $(STRICT) -c -o $@ $<
