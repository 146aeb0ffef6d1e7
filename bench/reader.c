/* Reads APDUs of the short form from standard input with the decoder that asn1c generates from
 * short-form.asn1, and prints `N apdus`. The whole input is read at once; each APDU is decoded and
 * freed, and nothing else is done with it: no constraint of the module is checked. */
#include <stdio.h>
#include <stdlib.h>
#include <unistd.h>

#include "Apdu.h"

/* All of standard input; its size goes to *size. */
static unsigned char *whole_input(size_t *size) {
    size_t room = 1 << 25, used = 0;
    unsigned char *bytes = malloc(room);
    while (bytes) {
        ssize_t count = read(0, bytes + used, room - used);
        if (count < 0) {
            perror("reader: read");
            exit(3);
        }
        if (count == 0) {
            *size = used;
            return bytes;
        }
        used += (size_t)count;
        if (used == room) {
            room *= 2;
            bytes = realloc(bytes, room);
        }
    }
    fputs("reader: memory\n", stderr);
    exit(3);
}

int main(void) {
    size_t size, at = 0;
    unsigned long apdus = 0;
    unsigned char *bytes = whole_input(&size);
    while (at < size) {
        Apdu_t *apdu = NULL;
        asn_dec_rval_t answer = ber_decode(NULL, &asn_DEF_Apdu, (void **)&apdu, bytes + at, size - at);
        ASN_STRUCT_FREE(asn_DEF_Apdu, apdu);
        if (answer.code != RC_OK) {
            fprintf(stderr, "reader: no APDU at %zu\n", at);
            return 2;
        }
        at += answer.consumed;
        apdus++;
    }
    printf("%lu apdus\n", apdus);
    free(bytes);
    return 0;
}
