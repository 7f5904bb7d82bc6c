/* Writes the octets of a tape: encode FILE NAME little|big POS HEX */
#include <idlc.h>

#include <stdio.h>
#include <stdlib.h>
#include <string.h>

static uint8_t file[1 << 24];
static uint8_t tape[1 << 16];

static size_t of_hex(const char *digits)
{
    size_t len = strlen(digits) / 2;
    for (size_t i = 0; i < len; i++) {
        unsigned octet = 0;
        sscanf(digits + 2 * i, "%2x", &octet);
        tape[i] = (uint8_t)octet;
    }
    return len;
}

int main(int argc, char **argv)
{
    if (argc != 6)
        return 2;
    FILE *from = fopen(argv[1], "rb");
    if (!from)
        return 3;
    size_t file_len = fread(file, 1, sizeof file, from);
    fclose(from);

    struct idlc_table table = {0};
    struct idlc_refusal refusal;
    uint32_t node;
    size_t len = 0;
    uint8_t *octets = NULL;
    uint32_t number = idlc_load(&table, file, file_len, &refusal);
    if (number == IDLC_DONE)
        number = idlc_find(&table, (const uint8_t *)argv[2], strlen(argv[2]), &node);
    if (number == IDLC_DONE) {
        bool little = strcmp(argv[3], "little") == 0;
        uint64_t pos = strtoull(argv[4], NULL, 10);
        size_t tape_len = of_hex(argv[5]);
        uint8_t none;
        number = idlc_encode(&table, node, little, pos, tape, tape_len, &none, 0, &len);
        if (number == IDLC_NO_ROOM) {
            octets = malloc(len);
            number = octets ? idlc_encode(&table, node, little, pos, tape, tape_len, octets, len, &len)
                            : (uint32_t)IDLC_NO_MEMORY;
        }
    }
    if (number == IDLC_DONE) {
        for (size_t i = 0; i < len; i++)
            printf("%02x", octets[i]);
        printf("\n");
    } else {
        fprintf(stderr, "%u\n", number);
    }
    free(octets);
    idlc_free(&table);
    return number != IDLC_DONE;
}
