/* What a switch that can loop back by itself has to be told: the rules of an image before, in and after a session. */
#include "rules.h"
#include "tmavolice.h"
#include <stdio.h>
#include <stdlib.h>

static const char plan[] = "port\t1\tuni\t020000000001\n"
                           "flow\t1\t1\tc\t20\n"
                           "mp\t1\tup\t4\n";

/* An Activate of 5 seconds from the tester 02-00-00-00-00-AA: destination, source, tag and type, then the PDU. */
static const uint8_t activate[] = {
    0x02, 0, 0, 0, 0, 0x01, 0x02, 0, 0, 0, 0, 0xaa, 0x81, 0, 0, 20, 0x89, 0x02,
    0x80, 57, 0, 8, 1, 0, 0x02, 0, 0, 0, 0, 0x01, 37, 0, 5, 1, 0, 0, 0, 5, 0};

static uint8_t image[TMAVOLICE_IMAGE_LEN], out[TMAVOLICE_OUT_LEN];

static void must_be(enum tmavolice_outcome wanted, const char *call, uint64_t answer) {
    if (tmavolice_outcome_of(answer) != wanted) {
        fprintf(stderr, "%s: %s\n", call, tmavolice_outcome_text(tmavolice_outcome_of(answer)));
        exit(1);
    }
}

static void show_address(const uint8_t *octets) {
    int i;
    for (i = 0; i < 6; i++)
        printf("%s%02X", i == 0 ? " " : "-", octets[i]);
}

static void show_rules(const char *when) {
    static const char *const tags[] = {"?", "untagged", "C-VID", "S-VID"};
    struct rule rules[RULES];
    size_t i, count = rules_of(image, rules);
    printf("%s: %u\n", when, (unsigned)count);
    for (i = 0; i < count; i++) {
        printf("  port %u, %s %u, from", (unsigned)rules[i].port, tags[rules[i].kind & 3], rules[i].vid);
        show_address(rules[i].tester);
        printf(" on the side of the %s; the port is", rules[i].side == TMAVOLICE_SIDE_CEN ? "CEN" : "External Network");
        show_address(rules[i].address);
        printf("\n");
    }
}

int main(void) {
    must_be(TMAVOLICE_OUTCOME_DONE, "make", tmavolice_make(image, sizeof image, (const uint8_t *)plan, sizeof plan - 1, 0));
    must_be(TMAVOLICE_OUTCOME_DONE, "allow", tmavolice_allow(image, sizeof image, 1));
    show_rules("before an Activate");
    must_be(TMAVOLICE_OUTCOME_REPLY, "frame",
            tmavolice_frame(image, sizeof image, 1, TMAVOLICE_SIDE_CEN, activate, sizeof activate, out, sizeof out));
    show_rules("with a session");
    must_be(TMAVOLICE_OUTCOME_DONE, "tick", tmavolice_tick(image, sizeof image, 5000));
    show_rules("with a notice due");
    must_be(TMAVOLICE_OUTCOME_REPLY, "notice", tmavolice_notice(image, sizeof image, out, sizeof out));
    show_rules("with the notice taken");
    return 0;
}
