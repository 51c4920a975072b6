#include "show.h"
#include "fields.h"
#include "words.h"
#include <stdio.h>

static const char *const outcomes[] = {"refused", "forward", "drop", "loop", "reply", "reply and forward", "done", "plan fault"};

/* Every frame here has one tag, so its PDU or data begins at octet 18. */
enum { FROM = 6, TAG = 12, TYPE = 16, BEHIND = 18 };

static void show_head(const uint8_t *frame) {
    printf("to ");
    show_octets(frame, 6, '-');
    printf(" from ");
    show_octets(frame + FROM, 6, '-');
    printf(", tag ");
    show_octets(frame + TAG, 4, ' ');
    printf(", type ");
    show_octets(frame + TYPE, 2, ' ');
}

static void show_frame(const char *words) {
    uint8_t frame[TMAVOLICE_FRAME_MAX];
    size_t length = octets_of(words, frame, sizeof frame);
    printf("    frame   ");
    show_head(frame);
    printf(": %s\n            ", is_oam(frame + TYPE) ? message_of(frame + BEHIND) : "data");
    show_octets(frame + BEHIND, length - BEHIND, ' ');
    printf("\n");
}

void show_step(const struct step *s) {
    if (s->call == FRAME)
        show_frame(s->frame);
    else if (s->call == NOTICE)
        printf("    take a notice\n");
    else
        printf("    %-7s %lu\n", s->call == TICK ? "tick" : "restart", (unsigned long)s->clock);
}

static void show_output(const uint8_t *out, size_t length) {
    printf(", %lu octets, ", (unsigned long)length);
    show_head(out);
    printf("\n            ");
    show_octets(out + BEHIND, length - BEHIND, ' ');
    printf("\n            ");
    show_fields(out + BEHIND, length - BEHIND);
}

void show_answer(uint64_t answer, const uint8_t *out) {
    printf("    answer  %s", outcomes[tmavolice_outcome_of(answer)]);
    if (tmavolice_outcome_of(answer) == TMAVOLICE_REFUSED)
        printf(", number %d", tmavolice_refusal_of(answer));
    if (tmavolice_port_of(answer) != 0)
        printf(" at port %lu, %s", (unsigned long)tmavolice_port_of(answer),
               tmavolice_side_of(answer) == TMAVOLICE_CEN ? "CEN" : "External");
    if (tmavolice_length_of(answer) > BEHIND)
        show_output(out, tmavolice_length_of(answer));
    printf("\n");
}
