/* Eight threads, each with a table of its own, which the main thread then uses and lets go of. Every second table is one
 * that all share. */
#include <idlc.h>

#include <pthread.h>
#include <string.h>

enum { THREADS = 8, ROUNDS = 2000 };

static const char idl[] = "struct Point {long x; string label;};", text[] = "{\"x\":-4,\"label\":\"hi\"}";
static const uint8_t octets[] = {0xff, 0xff, 0xff, 0xfc, 0, 0, 0, 3, 'h', 'i', 0};
static struct idlc_table tables[THREADS];

static int is_right(struct idlc_table *table)
{
    struct idlc_place place;
    uint8_t out[64];
    size_t len = 0, taken = 0;
    uint32_t node;
    const uint8_t *said = (const uint8_t *)text;
    if (idlc_find(table, (const uint8_t *)"Point", 5, &node)
        || idlc_encode_text(table, node, false, 0, said, sizeof text - 1, out, sizeof out, &len, &place)
        || len != sizeof octets || memcmp(out, octets, len))
        return 0;
    return !idlc_decode_text(table, node, false, 0, octets, sizeof octets, &taken, out, sizeof out, &len)
        && taken == sizeof octets && len == sizeof text - 1 && !memcmp(out, text, len);
}

static int compile(struct idlc_table *table)
{
    struct idlc_place place;
    return !idlc_compile(table, (const uint8_t *)idl, sizeof idl - 1, &place);
}

static void *work(void *at)
{
    struct idlc_table *table = at;
    if (!table->loaded && !compile(table))
        return NULL;
    for (int round = 0; round < ROUNDS; round++)
        if (!is_right(table))
            return NULL;
    return table;
}

int main(void)
{
    pthread_t threads[THREADS];
    struct idlc_table shared = {0};
    int wrong = !compile(&shared);
    for (int n = 0; n < THREADS; n += 2)
        wrong += idlc_share(&shared, &tables[n]) != IDLC_DONE;
    idlc_free(&shared);
    for (int n = 0; n < THREADS; n++)
        if (pthread_create(&threads[n], NULL, work, &tables[n]))
            return 2;
    for (int n = 0; n < THREADS; n++) {
        void *done = NULL;
        pthread_join(threads[n], &done);
        wrong += !done || !is_right(&tables[n]);
        idlc_free(&tables[n]);
    }
    return wrong != 0;
}
