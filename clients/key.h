/* The key in the handles of a server: the environment's NFS3D_KEY, 16 hexadecimal digits as clients/key prints them, or
 * 0102030405060708 where it isn't there. */
#include <stdint.h>
#include <stdio.h>
#include <stdlib.h>
#include <string.h>

static void read_key(uint32_t key[2]) {
    const char *text = getenv("NFS3D_KEY");
    char more;
    if (!text) text = "0102030405060708";
    if (strlen(text) != 16 || sscanf(text, "%8x%8x%c", &key[0], &key[1], &more) != 2) {
        fprintf(stderr, "NFS3D_KEY is no key of 16 hexadecimal digits: %s\n", text);
        exit(2);
    }
}
