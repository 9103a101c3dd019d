/*
 * Reads lines of a type of nfs3.x and a message in hexadecimal, and says whether the code that rpcgen
 * makes of nfs3.x reads the message to its end as that type, and writes the same bytes again.
 */
#include <stdio.h>
#include <stdlib.h>
#include <string.h>
#include "nfs3.h"

#define CALL(name)                                                                                 \
    { #name "3args", (xdrproc_t)xdr_##name##3args }, { #name "3res", (xdrproc_t)xdr_##name##3res }

static const struct {
    const char *name;
    xdrproc_t code;
} TYPES[] = {CALL(GETATTR), CALL(LOOKUP), CALL(ACCESS), CALL(READ),    CALL(CREATE), CALL(MKDIR),
             CALL(REMOVE),  CALL(RMDIR),  CALL(RENAME), CALL(READDIR), CALL(FSINFO)};

/* Whether the bytes are read to their end as the type, and written again. */
static int is_again(xdrproc_t code, char *bytes, unsigned length)
{
    static char value[4096], again[65536];
    XDR in, out;
    memset(value, 0, sizeof value);
    xdrmem_create(&in, bytes, length, XDR_DECODE);
    if (!code(&in, value) || xdr_getpos(&in) != length) {
        return 0;
    }
    xdrmem_create(&out, again, sizeof again, XDR_ENCODE);
    return code(&out, value) && xdr_getpos(&out) == length && !memcmp(bytes, again, length);
}

int main(void)
{
    static char type[64], hex[65536], bytes[32768];
    int same = 0, other = 0;
    while (scanf("%63s %65535s", type, hex) == 2) {
        unsigned length = strlen(hex) / 2, byte, found = 0;
        for (unsigned k = 0; k < length; k++) {
            sscanf(hex + 2 * k, "%2x", &byte);
            bytes[k] = (char)byte;
        }
        for (unsigned t = 0; t < sizeof TYPES / sizeof *TYPES; t++) {
            if (!strcmp(TYPES[t].name, type)) {
                found = is_again(TYPES[t].code, bytes, length);
            }
        }
        if (found) {
            same++;
        } else {
            other++;
            printf("%s %s\n", type, hex);
        }
    }
    printf("%d read and written again, %d not\n", same, other);
    return other != 0;
}
