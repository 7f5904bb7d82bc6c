/* The calls about messages, with each allocation refused in turn: messages. It prints a request and a reply, and ends with
 * 0 where what must hold held. */
#include "refusing.h"

static const char idl[] = "struct S {octet a; unsigned long b; string c;};\n";
static const uint8_t tape[] = {7, 0, 0, 0, 1, 0, 0, 0, 2, 'h', 'i'};
static const uint8_t key[] = {'K'}, operation[] = {'p', 'i', 'n', 'g'};

static struct idlc_table table;
static struct idlc_place place;
static struct idlc_message message;
static uint32_t node;
static uint8_t kept[1 << 10], large[2 << 20];
static size_t kept_len;

static uint32_t request(size_t tape_len, const uint8_t *called, size_t called_len, size_t room, size_t *len)
{
    return idlc_write_request(&table, node, false, 1, 3, key, 1, called, called_len, tape, tape_len, out, room, len);
}

static uint32_t reply(uint32_t status, size_t room, size_t *len)
{
    return idlc_write_reply(&table, node, true, 7, status, tape, sizeof tape, out, room, len);
}

static uint32_t read_kept(size_t room, size_t *len)
{
    return idlc_read_message(&table, kept, kept_len, &message, out, room, len);
}

static void keep(size_t len)
{
    memcpy(kept, out, len);
    kept_len = len;
    for (size_t i = 0; i < len; i++)
        printf("%02x", out[i]);
    printf("\n");
}

static long requests(void)
{
    size_t len = 99;
    begin(0);
    must(request(sizeof tape, operation, 4, 0, &len) == IDLC_NO_ROOM && len == 63 && is_untouched(), "length of a request");
    must(request(sizeof tape, operation, 4, 62, &len) == IDLC_NO_ROOM && len == 63 && is_untouched(), "one too few");
    must(request(10, operation, 4, 62, &len) == IDLC_BAD_BODY && len == 63 && is_untouched(), "a cut tape");
    must(request(sizeof tape, (const uint8_t *)"a\0b", 3, 99, &len) == IDLC_BAD_HEAD && is_untouched(), "a zero");
    must(request(sizeof tape, large, 0, 99, &len) == IDLC_DONE && len == 63, "no name of an operation");
    memset(large, 'a', sizeof large);
    must(request(sizeof tape, large, sizeof large, 99, &len) == IDLC_MESSAGE_TOO_LONG && len == 63, "a long operation");
    for (long n = 1;; n++) {
        begin(n);
        long before = held;
        uint32_t number = request(sizeof tape, operation, 4, sizeof out, &len);
        must(held == before && table.loaded, "a request leaks nothing");
        if (asked < n) {
            must(number == IDLC_DONE && len == 63, "writes a request");
            keep(len);
            return n - 1;
        }
        must(number == IDLC_NO_MEMORY && is_untouched(), "no memory to write a request");
    }
}

static void is_asked(size_t len)
{
    must(len == 5 && is_written("Kping", 5), "hands over key and operation");
    must(message.kind == IDLC_REQUEST && message.id == 1 && message.detail == 3 && !message.little, "tells the request");
    must(message.has_key && message.key_len == 1 && message.operation_len == 4, "tells the texts");
    must(message.taken == 63 && message.body_at == 48, "tells the body");
}

static long reads(void)
{
    size_t len = 99;
    begin(0);
    must(read_kept(4, &len) == IDLC_NO_ROOM && len == 5 && is_untouched() && message.kind == 0, "length of the texts");
    for (long n = 1;; n++) {
        begin(n);
        long before = held;
        uint32_t number = read_kept(sizeof out, &len);
        must(held == before && table.loaded, "reading leaks nothing");
        if (asked < n) {
            must(number == IDLC_DONE, "reads a request");
            is_asked(len);
            return n - 1;
        }
        must(number == IDLC_NO_MEMORY && is_untouched() && message.taken == 0, "no memory to read");
    }
}

static void others(void)
{
    static const uint8_t closes[12] = {'G', 'I', 'O', 'P', 1, 2, 0, 5}, fails[12] = {'G', 'I', 'O', 'P', 1, 2, 0, 6};
    size_t len = 99;
    begin(0);
    kept_len = 62;
    must(read_kept(99, &len) == IDLC_DONE && len == 0 && message.kind == IDLC_NOT_YET && message.taken == 0, "a part");
    must(idlc_read_message(&table, closes, 12, &message, out, 0, &len) == IDLC_DONE, "a close");
    must(message.kind == IDLC_CLOSE_CONNECTION && message.taken == 12, "is told");
    must(idlc_read_message(&table, fails, 12, &message, out, 0, &len) == IDLC_DONE, "an error");
    must(message.kind == IDLC_MESSAGE_ERROR, "is told");
    kept[0] = 'g';
    must(read_kept(99, &len) == IDLC_NOT_GIOP && message.kind == IDLC_MESSAGE_ERROR && is_untouched(), "no GIOP");
    kept[0] = 'G';
    kept[5] = 1;
    must(read_kept(99, &len) == IDLC_GIOP_VERSION, "1.1");
    kept[5] = 2;
    /* more follows, and a piece ends at a multiple of 8 */
    kept[6] = 2;
    kept[11] = 52;
    kept_len = 64;
    must(read_kept(99, &len) == IDLC_DONE && message.kind == IDLC_PIECE && message.id == 1 && message.detail == 1, "a piece");
    kept[7] = 7;
    must(read_kept(99, &len) == IDLC_BAD_FRAGMENT, "a piece of nothing");
}

static long replies(void)
{
    size_t len = 99;
    begin(0);
    must(reply(6, 99, &len) == IDLC_BAD_HEAD && is_untouched(), "no status");
    must(reply(1, 38, &len) == IDLC_NO_ROOM && len == 39 && is_untouched(), "length of a reply");
    for (long n = 1;; n++) {
        begin(n);
        long before = held;
        uint32_t number = reply(1, sizeof out, &len);
        must(held == before && table.loaded, "a reply leaks nothing");
        if (asked < n) {
            must(number == IDLC_DONE && len == 39, "writes a reply");
            keep(len);
            break;
        }
        must(number == IDLC_NO_MEMORY && is_untouched(), "no memory to write a reply");
    }
    long tried = asked;
    begin(0);
    must(read_kept(0, &len) == IDLC_DONE && len == 0 && message.kind == IDLC_REPLY && message.id == 7, "reads a reply");
    must(message.detail == 1 && message.little && message.taken == 39 && message.body_at == 24, "tells the reply");
    return tried;
}

int main(void)
{
    size_t len = 99;
    begin(0);
    must(request(sizeof tape, operation, 4, 99, &len) == IDLC_NO_TABLE && reply(0, 99, &len) == IDLC_NO_TABLE, "no table");
    must(read_kept(99, &len) == IDLC_NO_TABLE && len == 99 && is_untouched(), "no table to read by");
    must(idlc_compile(&table, (const uint8_t *)idl, sizeof idl - 1, &place) == IDLC_DONE, "compiles");
    must(idlc_find(&table, (const uint8_t *)"S", 1, &node) == IDLC_DONE, "finds");
    node += 1000;
    must(request(sizeof tape, operation, 4, 99, &len) == IDLC_NO_NAME && reply(0, 99, &len) == IDLC_NO_NAME, "no name");
    node -= 1000;
    long asks = requests(), reading = reads();
    others();
    long answers = replies();
    idlc_free(&table);
    must(held == 0, "all is let go of");
    printf("%ld %ld %ld\n", asks, reading, answers);
    return 0;
}
