/* The calls about texts, with each allocation refused in turn: texts. It ends with 0 where what must hold held. */
#include "refusing.h"

static const char idl[] = "enum Color {red, green};\nstruct Point {long x; string label; Color color;};\n";
static const char text[] = "{\"x\": -4, \"color\": \"green\", \"label\": \"hi\"}";
static const char printed[] = "{\"x\":-4,\"label\":\"hi\",\"color\":\"green\"}";
static const uint8_t octets[] = {0xfc, 0xff, 0xff, 0xff, 3, 0, 0, 0, 'h', 'i', 0, 0, 1, 0, 0, 0, 99};
static const size_t len_is = sizeof octets - 1, printed_len = sizeof printed - 1;

static struct idlc_table table;
static struct idlc_place place;
static uint32_t node;

static uint32_t compile(const char *source)
{
    return idlc_compile(&table, (const uint8_t *)source, strlen(source), &place);
}

static uint32_t find(const char *name)
{
    return idlc_find(&table, (const uint8_t *)name, strlen(name), &node);
}

static uint32_t encode(const char *said, size_t room, size_t *len)
{
    return idlc_encode_text(&table, node, true, 0, (const uint8_t *)said, strlen(said), out, room, len, &place);
}

static uint32_t decode(size_t octets_len, size_t *taken, size_t room, size_t *len)
{
    return idlc_decode_text(&table, node, true, 0, octets, octets_len, taken, out, room, len);
}

static int is_placed(uint32_t number, size_t line, size_t column)
{
    return place.number == number && place.line == line && place.column == column;
}

static long compiles(void)
{
    for (long n = 1;; n++) {
        begin(n);
        uint32_t number = compile(idl);
        if (asked < n) {
            must(number == IDLC_DONE && table.loaded, "compiles");
            return n - 1;
        }
        /* a planned program is left out where memory is wanted, so the call may be done without */
        must(number == IDLC_DONE || (number == IDLC_NO_MEMORY && !table.loaded), "no memory to compile");
        idlc_free(&table);
        must(held == 0 && is_placed(0, 0, 0), "no memory to compile leaks and tells nothing");
    }
}

static long encodes(void)
{
    size_t len = 99;
    begin(0);
    must(encode(text, 0, &len) == IDLC_NO_ROOM && len == len_is && is_untouched(), "length of octets");
    must(encode(text, len - 1, &len) == IDLC_NO_ROOM && len == len_is && is_untouched(), "one too few");
    for (long n = 1;; n++) {
        begin(n);
        long before = held;
        uint32_t number = encode(text, len_is, &len);
        must(held == before && table.loaded, "encode_text leaks nothing");
        if (asked < n) {
            must(number == IDLC_DONE && len == len_is && is_written(octets, len), "encodes a text");
            return n - 1;
        }
        must(number == IDLC_NO_MEMORY && is_untouched() && is_placed(0, 0, 0), "no memory to encode a text");
    }
}

static long decodes(void)
{
    size_t len = 99, taken = 77;
    begin(0);
    must(decode(sizeof octets, &taken, 0, &len) == IDLC_NO_ROOM && len == printed_len, "length of the text");
    must(decode(sizeof octets, &taken, len - 1, &len) == IDLC_NO_ROOM && taken == 77 && is_untouched(), "one too few");
    for (long n = 1;; n++) {
        begin(n);
        long before = held;
        uint32_t number = decode(sizeof octets, &taken, printed_len, &len);
        must(held == before && table.loaded, "decode_text leaks nothing");
        if (asked < n) {
            must(number == IDLC_DONE && len == printed_len && taken == len_is && is_written(printed, len), "a text");
            return n - 1;
        }
        must(number == IDLC_NO_MEMORY && taken == 77 && is_untouched(), "no memory to decode a text");
    }
}

static void refusals(void)
{
    size_t len = 99, taken = 77;
    begin(0);
    must(encode("{\"x\":1,\n\"z\":2}", sizeof out, &len) == IDLC_NO_SUCH_MEMBER && is_placed(119, 2, 1), "member");
    must(encode("[1,\"\",2]", sizeof out, &len) == IDLC_NOT_ENUMERATOR && is_placed(115, 1, 7), "enumerator");
    must(encode("\"\xff\"", sizeof out, &len) == IDLC_NOT_JSON && is_placed(110, 0, 0), "not UTF-8");
    must(encode("", sizeof out, &len) == IDLC_NOT_JSON, "no text");
    must(decode(len_is - 1, &taken, sizeof out, &len) == IDLC_SHORT, "short octets");
    node = 4000000000u;
    place.number = 7;
    must(encode(text, sizeof out, &len) == IDLC_NO_NAME && place.number == 7, "no such node");
    must(decode(len_is, &taken, sizeof out, &len) == IDLC_NO_NAME, "no such node to decode");
    must(len == 99 && taken == 77 && is_untouched() && table.loaded, "refused calls tell nothing");
    must(compile("struct S {\n  longer x;\n};") == IDLC_FAULTY_IDL && place.number == IDLC_UNKNOWN, "unknown");
    must(place.line == 2 && place.column == 3 && table.loaded, "its line and column");
    must(compile("@") == IDLC_FAULTY_IDL && is_placed(IDLC_BAD_CHAR, 1, 1), "no character of IDL");
    must(compile("  struct") == IDLC_FAULTY_IDL && is_placed(IDLC_END_OF_FILE, 1, 3), "the end");
    must(compile("union U switch(boolean) {case TRUE: case TRUE: long x;};") == IDLC_FAULTY_IDL, "labels");
    must(is_placed(IDLC_LABEL_TWICE, 1, 42), "a label twice");
    must(compile("\xff") == IDLC_FAULTY_IDL && is_placed(IDLC_BAD_CHAR, 0, 0), "no text");
    must(find("Point") == IDLC_DONE && encode(text, sizeof out, &len) == IDLC_DONE && len == len_is, "still loaded");
}

static void freed(void)
{
    size_t len = 99, taken = 77;
    idlc_free(&table);
    must(held == 0 && !table.loaded, "frees all");
    begin(0);
    must(encode(text, sizeof out, &len) == IDLC_NO_TABLE, "freed: encode_text");
    must(decode(len_is, &taken, sizeof out, &len) == IDLC_NO_TABLE, "freed: decode_text");
    must(len == 99 && taken == 77 && is_untouched() && held == 0, "freed: untouched");
}

int main(void)
{
    held = 0;
    long to_compile = compiles();
    must(find("Point") == IDLC_DONE, "finds");
    long to_encode = encodes(), to_decode = decodes();
    refusals();
    must(compile("typedef long T;") == IDLC_DONE && find("Point") == IDLC_NO_NAME, "in the place of another");
    freed();
    must(to_compile > 0 && to_encode > 0 && to_decode > 0, "allocations were refused");
    printf("%ld %ld %ld\n", to_compile, to_encode, to_decode);
    return 0;
}
