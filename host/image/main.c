/* tmavolice-image: prints an image in words, and whether the library would take it. */
#include "../tool/input.h"
#include "rows.h"
#include "tmavolice.h"
#include <stdio.h>

static const char tool[] = "tmavolice-image";
static const char help[] = "Prints a stored image in words, and says whether it is valid.\n"
                           "Without a file, or with '-', it reads standard input.\n"
                           "Ends with 0 if the image is valid, 1 if not, 2 if it can't be read.\n";

/* Taking a notice into no output is refused with 8 if the image is not valid, else with 3, and changes nothing. */
static int is_valid(uint8_t *image, size_t length) {
    uint8_t none[1] = {0};
    return tmavolice_refusal_of(tmavolice_notice(image, length, none, 0)) != TMAVOLICE_REFUSAL_NO_VALID_IMAGE;
}

static int is_all(const uint8_t *image, uint8_t octet) {
    size_t i;
    for (i = 0; i < TMAVOLICE_IMAGE_LEN; i++)
        if (image[i] != octet)
            return 0;
    return 1;
}

static void print_invalid(const uint8_t *image) {
    printf("not a valid image: every call but make refuses it with 8\n");
    if (is_all(image, 0x00))
        printf("all octets are 00: no state was made in it\n");
    else if (is_all(image, 0xff))
        printf("all octets are FF: erased flash\n");
    else {
        printf("what its rows say, right or not:\n");
        print_image(image);
    }
}

int main(int argc, char **argv) {
    static uint8_t image[TMAVOLICE_IMAGE_LEN + 1];
    struct input in = read_input(tool, help, argc, argv, image, sizeof image);
    int valid = in.length == TMAVOLICE_IMAGE_LEN && is_valid(image, in.length);
    if (valid)
        print_image(image);
    else if (in.length == TMAVOLICE_IMAGE_LEN)
        print_invalid(image);
    else if (in.length < TMAVOLICE_IMAGE_LEN)
        printf("not an image: it has fewer than 4,096 octets\n");
    else
        printf("not an image: it has more than 4,096 octets; if a checksum follows, try head -c 4096 FILE | %s\n", tool);
    end_with(tool, !valid);
}
