#include "paint.h"
#include "tmavolice.h"
#include <string.h>
#include <ucontext.h>

enum { SIZE = 8192 };

/* What is used of it lies where the C library for x86-64 has it, whose octets it has room for: also of another machine's header. */
_Static_assert(offsetof(ucontext_t, uc_link) == 8 && offsetof(ucontext_t, uc_stack) == 16 && sizeof(ucontext_t) >= 968, "ucontext_t");

static uint8_t stack[SIZE] __attribute__((aligned(64)));
static ucontext_t here, there;

static void run_on_stack(void (*body)(void)) {
    getcontext(&there);
    there.uc_stack.ss_sp = stack;
    there.uc_stack.ss_size = SIZE;
    there.uc_link = &here;
    makecontext(&there, body, 0);
    swapcontext(&here, &there);
}

/* Where the stack of a call's caller ends, and calls that do nothing but tell it. What lies between that place and the frame address of
 * such a call are two words, on x86-64 and on Arm: the caller's frame pointer and the return address. */
static const uint8_t *callers_end;

#ifndef __OPTIMIZE__
#error "without optimisation they would have more than that"
#endif

#define TELL_CALLERS_END (callers_end = (const uint8_t *)__builtin_frame_address(0) + 16)

static uint64_t tell_frame(uint8_t *b, size_t n, uint32_t port, uint32_t side, const uint8_t *f, size_t f_len, uint8_t *out,
                           size_t out_len) {
    (void)b, (void)n, (void)port, (void)side, (void)f, (void)f_len, (void)out, (void)out_len;
    TELL_CALLERS_END;
    return 0;
}

static uint64_t tell_number(uint8_t *b, size_t n, uint32_t number) {
    (void)b, (void)n, (void)number;
    TELL_CALLERS_END;
    return 0;
}

static uint64_t tell_notice(uint8_t *b, size_t n, uint8_t *out, size_t out_len) {
    (void)b, (void)n, (void)out, (void)out_len;
    TELL_CALLERS_END;
    return 0;
}

static uint64_t tell_make(uint8_t *b, size_t n, const uint8_t *plan, size_t plan_len, uint32_t clock) {
    (void)b, (void)n, (void)plan, (void)plan_len, (void)clock;
    TELL_CALLERS_END;
    return 0;
}

static const struct unit telling = {"telling", tell_frame, tell_number, tell_number, tell_number, tell_notice, tell_number};

/* How far the paint is gone below the caller. Each time it is another one: no call leaves just that octet every time. */
static int depth_below_caller(void (*body)(void)) {
    static uint8_t paint;
    const uint8_t *lowest = stack;
    memset(stack, ++paint, SIZE);
    run_on_stack(body);
    while (lowest < callers_end && *lowest == paint)
        lowest++;
    return (int)(callers_end - lowest);
}

/* What is called on the painted stack. */
static const struct unit *unit;
static const struct event *event;
static uint64_t (*making)(uint8_t *, size_t, const uint8_t *, size_t, uint32_t);
static const uint8_t *text;
static size_t text_len, lent_len;
static uint8_t *lent, *output;
static volatile uint64_t answered;

static void carry_out(void) {
    answered = carried_out(unit, event, lent, output);
}

static void make(void) {
    answered = making(lent, lent_len, text, text_len, 0);
}

int depth_of(const struct unit *u, const struct event *e, uint8_t *image, uint8_t *out, uint64_t *answer) {
    lent = image, output = out, event = e;
    unit = &telling;
    run_on_stack(carry_out);
    unit = u;
    int depth = depth_below_caller(carry_out);
    *answer = answered;
    return depth;
}

int depth_of_make(const char *plan, size_t plan_len, uint8_t *image, size_t image_len, uint64_t *answer) {
    lent = image, lent_len = image_len, text = (const uint8_t *)plan, text_len = plan_len;
    making = tell_make;
    run_on_stack(make);
    making = tmavolice_make;
    int depth = depth_below_caller(make);
    *answer = answered;
    return depth;
}
