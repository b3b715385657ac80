/* Bytes that are written as digits, with spaces between them. */
#include <ctype.h>

static struct bytes of(const char *digits) {
    struct bytes bytes = {.length = 0};
    for (unsigned half = 0; *digits != 0; digits++) {
        if (*digits == ' ')
            continue;
        unsigned digit = isdigit((unsigned char)*digits) ? *digits - '0' : *digits - 'A' + 10;
        if (half++ % 2 == 0)
            bytes.at[bytes.length] = (uint8_t)(digit << 4);
        else
            bytes.at[bytes.length++] |= (uint8_t)digit;
    }
    return bytes;
}
