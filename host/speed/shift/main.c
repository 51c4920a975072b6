/* A recorded shift in C, to be timed against the proved program: the same calls of the same library, the same reading and printing. */
#include <fcntl.h>
#include <string.h>
#include <unistd.h>

#include "answer.h"
#include "event.h"
#include "tmavolice.h"

enum { BUFFER = 65536, KEPT = LINE_ROOM + 1, PLAN_ROOM = 8193 };

static uint8_t image[TMAVOLICE_IMAGE_LEN], frame[FRAME_ROOM], sent[TMAVOLICE_OUT_LEN];
static uint8_t buffer[BUFFER + 1], out[BUFFER], plan[PLAN_ROOM];
static size_t from, upto;

static void write_all(const uint8_t *octets, size_t length) {
    for (ssize_t went; length != 0; octets += went, length -= (size_t)went)
        if ((went = write(1, octets, length)) <= 0)
            _exit(1);
}

/* Reads on behind what is kept of a line that has not ended. */
static int read_on(void) {
    size_t kept = upto - from < KEPT ? upto - from : KEPT;
    memmove(buffer, buffer + from, kept);
    ssize_t got = read(0, buffer + kept, BUFFER - kept);
    from = 0, upto = kept + (got > 0 ? (size_t)got : 0);
    return got > 0;
}

static uint64_t call(const struct event *event) {
    switch (event->word) {
    case FRAME:
        return tmavolice_frame(image, sizeof image, event->number, event->side, frame, event->length, sent, sizeof sent);
    case TICK:
        return tmavolice_tick(image, sizeof image, event->number);
    case ALLOW:
        return tmavolice_allow(image, sizeof image, event->number);
    case PROHIBIT:
        return tmavolice_prohibit(image, sizeof image, event->number);
    case NOTICE:
        return tmavolice_notice(image, sizeof image, sent, sizeof sent);
    case RESTART:
        return tmavolice_restart(image, sizeof image, event->number);
    default:
        return 9 << 8;
    }
}

static uint8_t *step(uint8_t *at, uint64_t number, size_t end) {
    struct event event = read_event(buffer + from, end - from, frame);
    return put_answer(at, number, event.word, call(&event), sent);
}

static size_t line_end(void) {
    const uint8_t *lf = memchr(buffer + from, '\n', upto - from);
    return lf ? (size_t)(lf - buffer) : upto;
}

static int is_made(size_t end) {
    size_t length = 0;
    buffer[end] = 0;
    int file = open((const char *)buffer, O_RDONLY);
    for (ssize_t got; file >= 0 && (got = read(file, plan + length, PLAN_ROOM - length)) > 0;)
        length += (size_t)got;
    uint64_t made = tmavolice_make(image, sizeof image, plan, length, 0);
    if ((made & 255) == TMAVOLICE_PLAN_FAULT)
        write_all(out, (size_t)(put_fault(out, made >> 32, made >> 8 & 255) - out));
    return (made & 255) != TMAVOLICE_PLAN_FAULT;
}

int main(void) {
    while (line_end() == upto && read_on())
        ;
    size_t end = line_end();
    if (!is_made(end))
        return 0;
    from = end < upto ? end + 1 : end;
    for (uint64_t number = 1;;) {
        uint8_t *at = out;
        for (; (end = line_end()) < upto && out + BUFFER - at >= STEP_ROOM; from = end + 1)
            at = step(at, number++, end);
        if (at == out && !read_on()) {
            if (from < upto)
                write_all(out, (size_t)(step(out, number, upto) - out));
            return 0;
        }
        write_all(out, (size_t)(at - out));
    }
}
