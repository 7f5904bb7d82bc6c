/* The calls of a table, with each allocation refused in turn: calls FILE NAME TAPE-HEX OCTETS-HEX
 *
 * It prints a line for each name, and ends with 0 where what must hold held. */
#include "refusing.h"

static uint8_t file[1 << 20], tape[1 << 10], octets[1 << 10];

static size_t of_hex(const char *digits, uint8_t *to)
{
    size_t len = strlen(digits) / 2;
    for (size_t i = 0; i < len; i++) {
        unsigned octet = 0;
        sscanf(digits + 2 * i, "%2x", &octet);
        to[i] = (uint8_t)octet;
    }
    return len;
}

static struct idlc_table table;
static struct idlc_refusal refusal;
static uint32_t node;

/* Loads with each allocation refused in turn. */
static long load(size_t file_len)
{
    for (long n = 1;; n++) {
        begin(n);
        uint32_t number = idlc_load(&table, file, file_len, &refusal);
        if (asked < n) {
            must(number == IDLC_DONE && table.loaded, "loads");
            return n - 1;
        }
        must(number == IDLC_NO_MEMORY && refusal.number == number && !table.loaded, "no memory to load");
        must(held == 0, "no memory to load leaks nothing");
    }
}

/* Another table of the same, without memory of an earlier call, and refuses the allocation of this number. Tells how many
 * blocks there were before. */
static struct idlc_table other;

static long fresh(long n)
{
    long before = held;
    begin(0);
    must(idlc_share(&table, &other) == IDLC_DONE, "another table");
    begin(n);
    return before;
}

static int is_let_go(long before)
{
    idlc_free(&other);
    return held == before;
}

static long encode(size_t tape_len, size_t octets_len)
{
    size_t len = 99;
    begin(0);
    must(idlc_encode(&table, node, false, 0, tape, tape_len, out, 0, &len) == IDLC_NO_ROOM, "length of octets");
    must(len == octets_len && is_untouched(), "tells the length of octets");
    must(idlc_encode(&table, node, false, 0, tape, tape_len, out, len - 1, &len) == IDLC_NO_ROOM, "one too few");
    must(len == octets_len && is_untouched(), "one too few is told");
    for (long n = 1;; n++) {
        long before = fresh(n);
        uint32_t number = idlc_encode(&other, node, false, 0, tape, tape_len, out, octets_len, &len);
        must(other.loaded, "encode keeps the table");
        if (asked < n) {
            must(number == IDLC_DONE && len == octets_len && is_written(octets, len), "encodes");
            begin(1);
            must(idlc_encode(&other, node, false, 0, tape, tape_len, out, octets_len, &len) == IDLC_DONE, "by kept memory");
            must(is_written(octets, len), "the same octets");
            must(is_let_go(before), "encode leaks nothing");
            return n - 1;
        }
        must(number == IDLC_NO_MEMORY && is_untouched(), "no memory to encode");
        must(is_let_go(before), "no memory to encode leaks nothing");
    }
}

static long decode(size_t tape_len, size_t octets_len)
{
    size_t len = 99, taken = 77;
    begin(0);
    must(idlc_decode(&table, node, false, 0, octets, octets_len + 3, &taken, out, 0, &len) == IDLC_NO_ROOM, "length");
    must(len == tape_len && taken == 77 && is_untouched(), "tells the length of the tape");
    for (long n = 1;; n++) {
        long before = fresh(n);
        uint32_t number = idlc_decode(&other, node, false, 0, octets, octets_len + 3, &taken, out, tape_len, &len);
        must(other.loaded, "decode keeps the table");
        if (asked < n) {
            must(number == IDLC_DONE && len == tape_len && taken == octets_len, "decodes");
            must(is_written(tape, len) && is_let_go(before), "the tape");
            return n - 1;
        }
        must(number == IDLC_NO_MEMORY && taken == 77 && is_untouched(), "no memory to decode");
        must(is_let_go(before), "no memory to decode leaks nothing");
    }
}

static void names(void)
{
    size_t len = 0;
    uint32_t at = 0, found = 0;
    for (size_t place = 0;; place++) {
        begin(0);
        uint32_t number = idlc_name(&table, place, out, sizeof out, &len, &at);
        if (number == IDLC_NO_NAME)
            break;
        must(number == IDLC_DONE, "a name");
        printf("%.*s %u\n", (int)len, (const char *)out, at);
        must(idlc_find(&table, out, len, &found) == IDLC_DONE && found == at, "finds it");
        begin(0);
        must(idlc_name(&table, place, out, len - 1, &len, &found) == IDLC_NO_ROOM && is_untouched(), "room for a name");
    }
    must(idlc_find(&table, (const uint8_t *)"no such", 7, &found) == IDLC_NO_NAME, "no such name");
    must(idlc_find(&table, (const uint8_t *)"\xff", 1, &found) == IDLC_NO_NAME, "no text");
    must(idlc_find(&table, out, 0, &found) == IDLC_NO_NAME, "no name");
}

static void refusals(size_t tape_len, size_t octets_len)
{
    size_t len = 99, taken = 77;
    begin(0);
    must(idlc_encode(&table, node, false, 0, tape, tape_len - 1, out, sizeof out, &len) == IDLC_SHORT, "short");
    must(idlc_encode(&table, node, false, 0, tape, tape_len + 1, out, sizeof out, &len) == IDLC_TAPE_LEFT, "left");
    must(idlc_encode(&table, 4000000000u, false, 0, tape, tape_len, out, sizeof out, &len) == IDLC_NO_NAME, "node");
    must(idlc_decode(&table, node, false, 0, octets, octets_len - 1, &taken, out, sizeof out, &len) == IDLC_SHORT,
         "short octets");
    must(len == 99 && taken == 77 && is_untouched(), "refused calls tell nothing");
    must(idlc_load(&table, octets, octets_len, &refusal) == IDLC_NOT_A_TABLE && table.loaded, "not a table");
    must(refusal.number == IDLC_NOT_A_TABLE && refusal.node == 0, "its place");
    static uint8_t long_file[16777217];
    must(idlc_load(&table, long_file, sizeof long_file, &refusal) == IDLC_TOO_LONG && table.loaded, "too long");
    must(idlc_encode(&table, node, false, 0, tape, tape_len, out, sizeof out, &len) == IDLC_DONE, "still loaded");
}

/* Another table holds the same, also after the first one is let go of. */
static long share(size_t tape_len, size_t octets_len)
{
    static struct idlc_table third;
    size_t len = 0;
    long n = 1;
    for (;; n++) {
        begin(n);
        long before = held;
        uint32_t number = idlc_share(&table, &other);
        must(table.loaded, "share keeps the first");
        if (asked < n) {
            must(number == IDLC_DONE && other.loaded, "shares");
            break;
        }
        must(number == IDLC_NO_MEMORY && !other.loaded && held == before, "no memory to share");
    }
    begin(0);
    must(idlc_share(&third, &other) == IDLC_NO_TABLE && other.loaded, "nothing to share");
    must(idlc_share(&other, &third) == IDLC_DONE, "a third");
    idlc_free(&other);
    must(idlc_encode(&table, node, false, 0, tape, tape_len, out, octets_len, &len) == IDLC_DONE, "the first is there");
    idlc_free(&table);
    begin(0);
    must(idlc_encode(&third, node, false, 0, tape, tape_len, out, octets_len, &len) == IDLC_DONE, "the third is there");
    must(len == octets_len && is_written(octets, len), "and encodes");
    must(idlc_share(&third, &table) == IDLC_DONE, "the first again");
    idlc_free(&third);
    return n - 1;
}

static void freed(size_t tape_len, size_t octets_len)
{
    size_t len = 99, taken = 77;
    uint32_t found = 5;
    idlc_free(&table);
    must(held == 0 && !table.loaded, "frees all");
    idlc_free(&table);
    begin(0);
    must(idlc_encode(&table, node, false, 0, tape, tape_len, out, sizeof out, &len) == IDLC_NO_TABLE, "freed: encode");
    must(idlc_decode(&table, node, false, 0, octets, octets_len, &taken, out, sizeof out, &len) == IDLC_NO_TABLE, "decode");
    must(idlc_find(&table, out, 1, &found) == IDLC_NO_TABLE && found == 5, "find");
    must(idlc_name(&table, 0, out, sizeof out, &len, &found) == IDLC_NO_TABLE && found == 5, "name");
    must(len == 99 && taken == 77 && is_untouched() && held == 0, "freed: untouched");
}

int main(int argc, char **argv)
{
    FILE *from = argc == 5 ? fopen(argv[1], "rb") : NULL;
    if (!from)
        return 2;
    size_t file_len = fread(file, 1, sizeof file, from);
    fclose(from);
    held = 0;
    size_t tape_len = of_hex(argv[3], tape), octets_len = of_hex(argv[4], octets);
    long to_load = load(file_len);
    must(idlc_find(&table, (const uint8_t *)argv[2], strlen(argv[2]), &node) == IDLC_DONE, "finds");
    long to_encode = encode(tape_len, octets_len), to_decode = decode(tape_len, octets_len);
    names();
    long to_share = share(tape_len, octets_len);
    refusals(tape_len, octets_len);
    must(idlc_load(&table, file, file_len, &refusal) == IDLC_DONE, "loads in the place of another");
    freed(tape_len, octets_len);
    bool is_small = octets_len <= 64;
    must(to_load > 0 && to_share > 0, "allocations were refused");
    must((to_encode == 0) == is_small && (to_decode == 0) == is_small, "a small value takes no memory, another does");
    return 0;
}
