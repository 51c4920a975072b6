/* The ten lines of README.md, compiled. */
#include <tmavolice.h>

void transmit(uint32_t port, uint32_t side, const uint8_t *octets, size_t length);
void forward(uint32_t port, uint32_t side, const uint8_t *octets, size_t length);
void arrived(uint32_t port, uint32_t side, const uint8_t *frame, size_t length);

/* At the start: tmavolice_make from a plan, tmavolice_allow for each flow. Then tmavolice_tick, some ten times a second. */
static uint8_t image[TMAVOLICE_IMAGE_LEN], out[TMAVOLICE_OUT_LEN];

/* Notices are taken after every tick and prohibit, so no frame is refused for one. A frame of over 2,000 octets is refused, and forwarded
 * here: where ports carry jumbo frames, drop a tester's instead (docs/HOST.md). */
void arrived(uint32_t port, uint32_t side, const uint8_t *frame, size_t length) {
    uint64_t answer = tmavolice_frame(image, sizeof image, port, side, frame, length, out, sizeof out);
    enum tmavolice_outcome outcome = tmavolice_outcome_of(answer);
    if (tmavolice_length_of(answer) > 0) /* looped back, or an LLR */
        transmit(port, side, out, tmavolice_length_of(answer));
    if (outcome != TMAVOLICE_OUTCOME_LOOP && outcome != TMAVOLICE_OUTCOME_REPLY && outcome != TMAVOLICE_OUTCOME_DROP)
        forward(port, side, frame, length);
}
