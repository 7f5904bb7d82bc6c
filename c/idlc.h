/* Accepted tables for C: values to CDR octets and back, as tapes and as texts.
 *
 *     struct idlc_table table = {0};
 *     struct idlc_place place;
 *     uint32_t node;
 *     size_t len = 0;
 *     const char idl[] = "struct Point {long x; long y;};", text[] = "{\"x\":3,\"y\":-4}";
 *     if (idlc_compile(&table, (const uint8_t *)idl, sizeof idl - 1, &place) != IDLC_DONE) {
 *         fprintf(stderr, "%u, line %zu\n", place.number, place.line);
 *         return 1;
 *     }
 *     if (idlc_find(&table, (const uint8_t *)"Point", 5, &node) != IDLC_DONE)
 *         return 1;
 *     const uint8_t *said = (const uint8_t *)text;
 *     uint8_t none[1];   // a call with length 0 asks for the length
 *     uint32_t number = idlc_encode_text(&table, node, false, 0, said, sizeof text - 1, none, 0, &len, &place);
 *     uint8_t *octets = number == IDLC_NO_ROOM ? malloc(len) : NULL;
 *     if (octets && !idlc_encode_text(&table, node, false, 0, said, sizeof text - 1, octets, len, &len, &place))
 *         fwrite(octets, 1, len, stdout);
 *     free(octets);
 *     idlc_free(&table);
 *
 * What each call returns is proved, whatever octets it is given. The caller has these duties:
 *
 * - A table begins with zeros. It isn't copied while it is loaded, nor are its members changed; idlc_share gives another.
 * - No pointer is null, also where a length is 0, and each points to as much as its length says.
 *   What one call is given lies apart: a buffer isn't the octets that are read, nor the length.
 * - A `bool` is 0 or 1.
 * - One call at a time has a table. A table may be handed to another thread by a lock, or by a thread's start or end.
 *   Tables of idlc_share serve a thread each, at once.
 * - malloc, realloc and free are those of one allocator. No call is made from a signal handler, or from the forked
 *   child of a process with threads.
 * - There is stack enough. 64 KiB were, with 64 sequences and 64 levels of structures one inside another, for tapes;
 *   for IDL and for texts 8 MiB, the usual stack of a main thread.
 */
#ifndef IDLC_H
#define IDLC_H

#include <stdbool.h>
#include <stddef.h>
#include <stdint.h>

#ifdef __cplusplus
extern "C" {
#endif

/* What calls return. `idlc explain NN` says what a number means, and how to mend it; 42 to 47 are of this library alone. */
enum {
    IDLC_DONE = 0,
    IDLC_NO_MEMORY = 42,  /* malloc or realloc failed */
    IDLC_NO_TABLE = 43,   /* no table is loaded */
    IDLC_NO_NAME = 44,    /* no type has this name, or node; no name stands at this place */
    IDLC_NO_ROOM = 45,    /* the buffer is too small; the length that is needed is returned */
    IDLC_TOO_LONG = 46,   /* a table file has 16,777,216 octets at most */
    IDLC_FAULTY_IDL = 47, /* the IDL has a fault; its place is returned, with a number of 1 to 36, see below */

    /* the octets are no table's */
    IDLC_NOT_A_TABLE = 50,
    IDLC_VERSION = 51,
    IDLC_BAD_NUMBER = 52,
    IDLC_RANK_RISES = 53,
    IDLC_TRAILING = 54,
    IDLC_EMPTY_ROUTINE = 55,

    /* the tape or the octets are no value's */
    IDLC_SHORT = 60,
    IDLC_BAD_BOOL = 61,
    IDLC_BAD_ENUM = 62,
    IDLC_BAD_LENGTH = 63,
    IDLC_NO_TERMINATOR = 64,
    IDLC_ZERO_INSIDE = 65,
    IDLC_OVER_BOUND = 66,
    IDLC_TOO_DEEP = 67,
    IDLC_TAPE_LEFT = 68,

    /* the text is no value's */
    IDLC_NOT_JSON = 110, /* or isn't UTF-8: line 0 */
    IDLC_NOT_WHOLE = 111,
    IDLC_NOT_BOOLEAN = 112,
    IDLC_NOT_CHAR = 113,
    IDLC_NOT_TEXT = 114,
    IDLC_NOT_ENUMERATOR = 115,
    IDLC_NOT_DIGITS = 116,
    IDLC_NOT_A_LIST = 117,
    IDLC_NOT_MEMBERS = 118,
    IDLC_NO_SUCH_MEMBER = 119,
    IDLC_MEMBER_TWICE = 120,
    IDLC_MEMBER_MISSING = 121,
    IDLC_WRONG_COUNT = 122,
    IDLC_TEXT_TOO_DEEP = 123,
    IDLC_TEXT_BEHIND = 124,

    /* the octets are no message of GIOP 1.2, or no message can be written of what is given */
    IDLC_NOT_GIOP = 90,
    IDLC_GIOP_VERSION = 91,
    IDLC_MESSAGE_TOO_LONG = 92, /* more than 1,048,576 octets behind the head */
    IDLC_BAD_HEAD = 93,
    IDLC_BAD_BODY = 96,
    IDLC_BAD_FRAGMENT = 97,

    /* the table isn't right */
    IDLC_WRONG_WORK = 80,
    IDLC_WRONG_PADDING = 81,
    IDLC_ENTRY_OUTSIDE = 82,
    IDLC_EXITS_TOO_SMALL = 83,
    IDLC_NO_ROUTINE = 84,
    IDLC_NAMED_ENTRY_NOT_FULL = 85
};

/* The numbers of a place in IDL; `idlc explain NN` explains them too. */
enum {
    IDLC_BAD_CHAR = 1, /* or the text isn't UTF-8: line 0 */
    IDLC_OPEN_COMMENT = 2,
    IDLC_OPEN_LITERAL = 3,
    IDLC_BAD_LITERAL = 4,
    IDLC_BAD_ESCAPE = 5,
    IDLC_BAD_DIRECTIVE = 6,
    IDLC_KEYWORD_CASE = 7,
    IDLC_UNEXPECTED = 10,
    IDLC_END_OF_FILE = 11,
    IDLC_LEFT_OUT = 12,
    IDLC_LEVELS = 13,
    IDLC_UNKNOWN = 20,
    IDLC_COLLIDES = 21,
    IDLC_CASE_DIFFERS = 22,
    IDLC_AMBIGUOUS = 23,
    IDLC_NOT_A_TYPE = 24,
    IDLC_ID_TWICE = 25,
    IDLC_BAD_CONSTANT = 26,
    IDLC_BAD_BASE = 27,
    IDLC_PREFIX_IN_SCOPE = 28,
    IDLC_PREFIX_DIFFERS = 29,
    IDLC_SELF_HELD = 30,
    IDLC_LABEL_TWICE = 31,
    IDLC_LABEL_RANGE = 32,
    IDLC_DEFAULT_NEEDLESS = 33,
    IDLC_BAD_SWITCH = 34,
    IDLC_LIMIT = 35,
    IDLC_BAD_ONEWAY = 36
};

/* What stands at the front of a stream: the types of messages as GIOP numbers them, and two more. */
enum {
    IDLC_REQUEST = 0,
    IDLC_REPLY = 1,
    IDLC_CANCEL_REQUEST = 2,
    IDLC_LOCATE_REQUEST = 3,
    IDLC_CLOSE_CONNECTION = 5,
    IDLC_MESSAGE_ERROR = 6,
    IDLC_PIECE = 7,  /* the first piece of a request that comes in fragments */
    IDLC_NOT_YET = 8 /* no whole message is there yet */
};

/* A table, or none where all is zero. */
struct idlc_table {
    unsigned char *at;
    bool loaded;
};

/* Why a table was refused. Of 80 to 83 `place` is an instruction (83: an entry) of a routine of the first program (0) or
 * the second (1); of 84 and 85 `node` is the node of a name. What doesn't belong to a number is 0. */
struct idlc_refusal {
    uint32_t number;
    uint32_t program;
    uint32_t routine;
    uint32_t place;
    uint32_t node;
};

/* Where a text was refused, and the number. Lines and columns count from 1, columns in octets; they are 0 where the
 * octets aren't UTF-8, or where no column of IDL is known. */
struct idlc_place {
    uint32_t number;
    size_t line;
    size_t column;
};

/* What stands at the front of a stream. What doesn't belong to its kind is 0 or false. */
struct idlc_message {
    uint32_t kind;        /* IDLC_REQUEST to IDLC_NOT_YET */
    uint32_t id;          /* the number of the request */
    uint32_t detail;      /* the response flags of a request, the status of a reply; of a piece 1 */
    bool little;          /* the order of the body's numbers */
    bool has_key;         /* the target has the object's key */
    size_t taken;         /* how many octets it has: the next message stands behind them */
    size_t body_at;       /* where its body stands, from its first octet on: the position for idlc_decode; past its end: none */
    size_t key_len;       /* of the key, at the front of the buffer */
    size_t operation_len; /* of the operation, behind the key */
};

/* Loads the table of a file's octets, if it is right, and frees the one that was there. Returns 0, 42, 46, 50 to 55,
 * or 80 to 85. If it isn't 0 the table is as it was, and `refusal` is set. */
uint32_t idlc_load(struct idlc_table *table, const uint8_t *octets, size_t octets_len, struct idlc_refusal *refusal);

/* Loads the table of an IDL text, as a preprocessor leaves it, with the names of members, enumerators and parameters, and
 * frees the one that was there. Returns 0, 42 or 47. If it isn't 0 the table is as it was; with 47 `place` is set. */
uint32_t idlc_compile(struct idlc_table *table, const uint8_t *source, size_t source_len, struct idlc_place *place);

/* Has another table hold the same as this one, without a copy, and frees what was there. Each is freed by itself.
 * Returns 0, 42 or 43. If it isn't 0 the other is as it was. */
uint32_t idlc_share(struct idlc_table *table, struct idlc_table *other);

/* Frees the table, and may be called again. */
void idlc_free(struct idlc_table *table);

/* The node of a type's name, as "M::S". Returns 0, 43 or 44. */
uint32_t idlc_find(struct idlc_table *table, const uint8_t *name, size_t name_len, uint32_t *node);

/* The name at a place, from 0 on, and its node. Returns 0, 43, 44 behind the last, or 45. */
uint32_t idlc_name(struct idlc_table *table, size_t place, uint8_t *out, size_t out_len, size_t *len, uint32_t *node);

/* The octets of the value that the whole tape is, the first of them at a position, with zeros in the gaps. Returns 0,
 * 42 to 45, or 60 to 68: the tape is no value's. */
uint32_t idlc_encode(struct idlc_table *table, uint32_t node, bool little, uint64_t pos, const uint8_t *tape,
                     size_t tape_len, uint8_t *out, size_t out_len, size_t *len);

/* The tape of the value that a front of the octets encodes, whatever stands in the gaps, and how many octets that front
 * has. Returns 0, 42 to 45, or 60 to 68: no front encodes a value. */
uint32_t idlc_decode(struct idlc_table *table, uint32_t node, bool little, uint64_t pos, const uint8_t *octets,
                     size_t octets_len, size_t *taken, uint8_t *out, size_t out_len, size_t *len);

/* The same of the value that a text says: JSON of the form in crates/value_text/README.md, members and enumerators
 * by their names where the table was compiled, else by their places. Returns 0, 42 to 45, 60 to 68: the value has no octets,
 * or 110 to 124: the text says no value of the type, and `place` is set. */
uint32_t idlc_encode_text(struct idlc_table *table, uint32_t node, bool little, uint64_t pos, const uint8_t *text,
                          size_t text_len, uint8_t *out, size_t out_len, size_t *len, struct idlc_place *place);

/* As idlc_decode, but the buffer gets the value's text, without a zero or a line feed at its end. */
uint32_t idlc_decode_text(struct idlc_table *table, uint32_t node, bool little, uint64_t pos, const uint8_t *octets,
                          size_t octets_len, size_t *taken, uint8_t *out, size_t out_len, size_t *len);

/* Writes a GIOP 1.2 request: its number, its response flags (3: an answer is wanted, 0: none), the object's key, the
 * operation, no service contexts, and the value that the tape is of the node, as "M::I::op/in". Returns 0, 42 to 45, or
 * 92, 93, 96: no request has these. */
uint32_t idlc_write_request(struct idlc_table *table, uint32_t node, bool little, uint32_t id, uint8_t flags,
                            const uint8_t *key, size_t key_len, const uint8_t *operation, size_t operation_len,
                            const uint8_t *tape, size_t tape_len, uint8_t *out, size_t out_len, size_t *len);

/* The same of a reply: the number of its request, its status (0: no exception, 1: a user's, 2: a system's, 3 and 4: the
 * object is elsewhere, 5: it is asked for otherwise), no service contexts, and a value, as of "M::I::op/out". */
uint32_t idlc_write_reply(struct idlc_table *table, uint32_t node, bool little, uint32_t id, uint32_t status,
                          const uint8_t *tape, size_t tape_len, uint8_t *out, size_t out_len, size_t *len);

/* Reads what stands at the front of a stream. The buffer gets the key of the object that a request or a locate request asks
 * for, and behind it the operation. Any table serves. Returns 0, 42, 43, 45, or 90 to 93 and 97: the stream is none of GIOP 1.2.
 * Requests in fragments aren't joined: the first piece is reported, and each one behind it returns 97, IDLC_BAD_FRAGMENT.
 * If it isn't 0 `message` is as it was. */
uint32_t idlc_read_message(struct idlc_table *table, const uint8_t *octets, size_t octets_len,
                           struct idlc_message *message, uint8_t *out, size_t out_len, size_t *len);

/* Of all calls with a buffer: with 0 its first `*len` octets are written, and those behind them are as they were; with
 * 45 `*len` is the length that is needed, so a call with length 0 asks for it; unless it returns 0 the buffer is as it was.
 * idlc_encode and idlc_decode keep up to 1,048,576 octets of memory with the table for their next call. */

#ifdef __cplusplus
}
#endif

#endif
