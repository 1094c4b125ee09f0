/* The webfuse2 message layer for C99 and C++: requests and replies read and written, on numbers and bytes, and the
 * table of a service's outstanding requests.
 * x86-64 Linux; link with libtushalets.a. Compare the version once at start (tushalets_fits).
 *
 * What a caller owes at each call:
 *   - Each pointer is valid for its length, in bytes or in words. It is not null, also where the length is 0.
 *   - `numbers`, `lengths` and `records` are aligned for their type. `numbers` has all its words, also where fewer are
 *     looked at.
 *   - Above all, `out` overlaps no other argument, and neither does `records`. A text is checked before anything is
 *     stored, so an overlap could change it after its check.
 *   - Until the call returns, no other thread writes what is read, and none touches `out`, or `records` that the call
 *     may change.
 * Anything else is promised: every function ends and gives the right answer for every message and every value. No
 * message and no record has to be checked beforehand. No function allocates, keeps a pointer or has state. */
#ifndef TUSHALETS_H
#define TUSHALETS_H

#include <stddef.h>
#include <stdint.h>

#ifdef __cplusplus
extern "C" {
#endif

/* The version of the functions below, their arguments and answers, the cells and the words of a table. */
#define TUSHALETS_VERSION 3

/* Bytes of the longest message, and bytes that hold every listing. */
#define TUSHALETS_LONGEST 65536
#define TUSHALETS_LONGEST_LISTING 256

/* Records of a table of outstanding requests. */
#define TUSHALETS_RECORDS 64

/* Types of requests. The type of a method's reply is TUSHALETS_REPLY more. */
enum {
    TUSHALETS_ACCESS = 0x01,
    TUSHALETS_GETATTR = 0x02,
    TUSHALETS_READLINK = 0x03,
    TUSHALETS_SYMLINK = 0x04,
    TUSHALETS_LINK = 0x05,
    TUSHALETS_RENAME = 0x06,
    TUSHALETS_CHMOD = 0x07,
    TUSHALETS_CHOWN = 0x08,
    TUSHALETS_TRUNCATE = 0x09,
    TUSHALETS_FSYNC = 0x0a,
    TUSHALETS_OPEN = 0x0b,
    TUSHALETS_MKNOD = 0x0c,
    TUSHALETS_CREATE = 0x0d,
    TUSHALETS_RELEASE = 0x0e,
    TUSHALETS_UNLINK = 0x0f,
    TUSHALETS_READ = 0x10,
    TUSHALETS_WRITE = 0x11,
    TUSHALETS_MKDIR = 0x12,
    TUSHALETS_READDIR = 0x13,
    TUSHALETS_RMDIR = 0x14,
    TUSHALETS_STATFS = 0x15,
    TUSHALETS_UTIMENS = 0x16,
    TUSHALETS_GETCREDS = 0x17,
    TUSHALETS_REPLY = 0x80,
    TUSHALETS_UNKNOWN_RESPONSE = 0x80 /* the reply to a type that no method has */
};

/* Numbers of refusal. 0 is none. */
enum {
    TUSHALETS_TRUNCATED_HEADER = 1,     /* fewer bytes than id and type have */
    TUSHALETS_OVERSIZE = 2,             /* more than TUSHALETS_LONGEST bytes, read or to be written */
    TUSHALETS_UNEXPECTED_TYPE = 3,      /* a type that such a message does not have, or that cannot be entered */
    TUSHALETS_TRUNCATED = 4,            /* a number or bytes of a declared length do not fit into the message */
    TUSHALETS_MALFORMED_TEXT = 5,       /* a string is no well-formed UTF-8; in reading, the place is where its first
                                         * broken character begins */
    TUSHALETS_DATA_LENGTH_MISMATCH = 6, /* the result of a read reply is not the length of its data */
    TUSHALETS_BUFFER_TOO_SMALL = 7,     /* `out` is shorter than what is to be stored */
    TUSHALETS_RESULT_SIGN = 8,          /* a success with a negative result, or a failure without one */
    TUSHALETS_LENGTHS_MISMATCH = 9,     /* the lengths of names do not sum to their bytes */
    TUSHALETS_ID_OUTSTANDING = 10,      /* a request with this id is outstanding already */
    TUSHALETS_TABLE_FULL = 11,          /* every record of the table holds a request */
    TUSHALETS_ID_NOT_OUTSTANDING = 12,  /* a reply to an id that is not outstanding */
    TUSHALETS_TYPE_MISMATCH = 13,       /* a reply of a type that does not answer the request */
    TUSHALETS_UNSOUND_TABLE = 20        /* not 64 words, a word that is no record, an id held twice, or a held type of
                                         * TUSHALETS_REPLY or above */
};

/* Shapes of a reading. */
enum {
    TUSHALETS_SHAPE_REFUSED = 0,
    TUSHALETS_SHAPE_UNKNOWN = 1, /* an unknown request, or the unknown response */
    TUSHALETS_SHAPE_KNOWN = 2,   /* a request of one of the methods */
    TUSHALETS_SHAPE_FAILURE = 3, /* a reply with a negative result */
    TUSHALETS_SHAPE_SUCCESS = 4  /* any other reply of one of the methods */
};

/* What the front did. */
enum {
    TUSHALETS_ACT_HANDED_ON = 0,
    TUSHALETS_ACT_STORED = 1,
    TUSHALETS_ACT_REFUSED = 2
};

/* Cells of a reading: its fields in the order below, and 0 behind them. Cells and positions of names belong to
 * the bytes that were read: they are good with the same message, at the same length and unchanged.
 *   u8, u32, u64     one cell
 *   i8, i32          one cell with the 32 bits of the number: (int32_t)(uint32_t)fields[n]
 *   bool             one cell, 0 or 1
 *   timestamp        two cells: seconds, a u64, and nsec, a u32
 *   string, bytes    two cells: where the bytes begin in the message, and how many they are. A string is well-formed
 *                    UTF-8. No zero byte ends it, and there may be some inside
 *   strings          two cells: the place of the first name, and how many names there are. They are `at` and `left`
 *                    for tushalets_next_name
 *
 *   access request     path 0,1 (string)  mode 2 (i8)
 *   getattr request    path 0,1 (string)
 *   readlink request   path 0,1 (string)
 *   symlink request    target 0,1 (string)  linkpath 2,3 (string)
 *   link request       old_path 0,1 (string)  new_path 2,3 (string)
 *   rename request     old_path 0,1 (string)  new_path 2,3 (string)  flags 4 (u8)
 *   chmod request      path 0,1 (string)  mode 2 (u32)
 *   chown request      path 0,1 (string)  uid 2 (u32)  gid 3 (u32)
 *   truncate request   path 0,1 (string)  size 2 (u64)  handle 3 (u64)
 *   fsync request      path 0,1 (string)  is_datasync 2 (bool)  handle 3 (u64)
 *   open request       path 0,1 (string)  flags 2 (i32)
 *   mknod request      path 0,1 (string)  mode 2 (u32)  dev 3 (u64)
 *   create request     path 0,1 (string)  mode 2 (u32)
 *   release request    path 0,1 (string)  handle 2 (u64)
 *   unlink request     path 0,1 (string)
 *   read request       path 0,1 (string)  buffer_size 2 (u32)  offset 3 (u64)  handle 4 (u64)
 *   write request      path 0,1 (string)  data 2,3 (bytes)  offset 4 (u64)  handle 5 (u64)
 *   mkdir request      path 0,1 (string)  mode 2 (u32)
 *   readdir request    path 0,1 (string)
 *   rmdir request      path 0,1 (string)
 *   statfs request     path 0,1 (string)
 *   utimens request    path 0,1 (string)  atime 2,3 (timestamp)  mtime 4,5 (timestamp)  handle 6 (u64)
 *   getcreds request   none
 *
 *   getattr reply      result 0 (i32)  inode 1 (u64)  nlink 2 (u64)  mode 3 (u32)  uid 4 (u32)  gid 5 (u32)
 *                      rdev 6 (u64)  size 7 (u64)  blocks 8 (u64)
 *                      atime 9,10 (timestamp)  mtime 11,12 (timestamp)  ctime 13,14 (timestamp)
 *   readlink reply     result 0 (i32)  resolved 1,2 (string)
 *   open reply         result 0 (i32)  handle 1 (u64)
 *   create reply       result 0 (i32)  handle 1 (u64)
 *   read reply         result 0 (i32)  data 1,2 (bytes)
 *   readdir reply      result 0 (i32)  items 1,2 (strings)
 *   statfs reply       result 0 (i32)  bsize 1 (u64)  frsize 2 (u64)  blocks 3 (u64)  bfree 4 (u64)
 *                      bavail 5 (u64)  files 6 (u64)  ffree 7 (u64)  namemax 8 (u64)
 *   getcreds reply     creds 0,1 (string)
 *   each other reply   result 0 (i32): access, symlink, link, rename, chmod, chown, truncate, fsync, mknod, release,
 *                      unlink, write, mkdir, rmdir, utimens
 *   failure            result 0 (i32): every method but getcreds, which has none
 *   unknown            none: request and response */

/* The answer of a reader. A refusal has `number` (1 to 6; of tushalets_arrive also 12, 13 and 20) and `place`, and all
 * else is 0. An accepted message has all but these two, which are 0. */
typedef struct tushalets_reading {
    uint32_t shape;
    uint32_t number;
    uint32_t id;
    uint32_t type;
    size_t place;
    size_t known; /* the length of the known part; bytes behind it change nothing */
    uint64_t fields[17];
} tushalets_reading;

/* A step over the names of a readdir reply. `found` is 1: the name is `len` bytes at `start` of the message, and the
 * next step goes from `at` and `left`. `found` is 0: there is no further name, and the position stays. */
typedef struct tushalets_name {
    uint32_t found;
    uint32_t left;
    size_t start;
    size_t len;
    size_t at;
} tushalets_name;

/* The answer of a writer. `number` is 0: `len` bytes were stored at the start of `out`, and the rest of it is as
 * before. Else it is the number of a refusal (2, 3, 5 to 9), `len` and `place` are 0, and no byte of `out` has
 * changed. */
typedef struct tushalets_written {
    uint32_t number;
    size_t len;
    size_t place;
} tushalets_written;

/* The answer of the front. Stored: `len` bytes at the start of `out`, and the rest is as before. Else no byte of
 * `out` has changed; a refusal has `number` (1 or 7) and `place`. */
typedef struct tushalets_fronted {
    uint32_t act;
    uint32_t number;
    size_t len;
    size_t place;
} tushalets_fronted;

/* The answer of a look at a table of outstanding requests. `number` is 0: `count` requests are outstanding. Where
 * `held` is 1 the id that was asked for is one of them, and `type` is the type of its request; else both are 0. Or
 * `number` is that of a refusal (20), and all else is 0. */
typedef struct tushalets_looked {
    uint32_t number;
    uint32_t held;
    uint32_t type;
    size_t count;
} tushalets_looked;

/* The version of the library that is linked. */
uint32_t tushalets_version(void);

/* Where the longest well-formed UTF-8 beginning of a text ends: `text_len` exactly where all of it is well-formed. */
size_t tushalets_well_formed_end(const uint8_t *text, size_t text_len);

/* Reads a request. */
tushalets_reading tushalets_read_request(const uint8_t *message, size_t message_len);

/* Reads a reply. */
tushalets_reading tushalets_read_reply(const uint8_t *message, size_t message_len);

/* The next name of a readdir reply that was read. The first position is cells 1 and 2 of the reading, the others are
 * those of the steps, all with the same message. A position that was made up is harmless: its name lies inside the
 * message, but it may be no text. */
tushalets_name tushalets_next_name(const uint8_t *message, size_t message_len, size_t at, uint32_t left);

/* The provider's front: answers a damaged or unknown request into `out`, and hands on a known one that is whole. A
 * request of more than TUSHALETS_LONGEST bytes is answered like an unknown one, with TUSHALETS_UNKNOWN_RESPONSE. Fewer
 * than five bytes have no id to answer with; they are refused as TUSHALETS_TRUNCATED_HEADER. Nine bytes of `out`
 * suffice. */
tushalets_fronted tushalets_front(const uint8_t *message, size_t message_len, uint8_t *out, size_t out_len);

/* The listing of a request, also of one that is refused: lines of text. TUSHALETS_LONGEST_LISTING bytes suffice. */
tushalets_written tushalets_list_request(const uint8_t *message, size_t message_len, uint8_t *out, size_t out_len);

/* Writes a request of one of the methods. `numbers` are the numbers of its row above, in order and without texts and
 * data: of a read request, buffer_size, offset, handle. Each is in the low bits of its word; a bool is any word but 0.
 * `first` and `second` are its texts or data, in order: of a write request, the path and the data. What the type does
 * not have is not looked at. */
tushalets_written tushalets_write_request(uint32_t id, uint8_t type, const uint64_t numbers[5],
                                          const uint8_t *first, size_t first_len,
                                          const uint8_t *second, size_t second_len,
                                          uint8_t *out, size_t out_len);

/* Writes an unknown request: a type that no method has, five bytes. */
tushalets_written tushalets_write_unknown_request(uint32_t id, uint8_t type, uint8_t *out, size_t out_len);

/* Writes a success, of getcreds too, which leaves `result` aside. `type` is the reply's, 0x81 to 0x97:
 * TUSHALETS_READ + TUSHALETS_REPLY, not TUSHALETS_READ. `numbers` are the numbers of its row above behind the result:
 * of a getattr reply, inode to ctime, all 14. `run` is its text or data. The names of a readdir reply are `run`, one
 * behind the other, and `lengths`. What the type does not have is not looked at. */
tushalets_written tushalets_write_reply(uint32_t id, uint8_t type, int32_t result, const uint64_t numbers[14],
                                        const uint8_t *run, size_t run_len,
                                        const uint32_t *lengths, size_t lengths_len,
                                        uint8_t *out, size_t out_len);

/* Writes a failure: nine bytes. `type` is the reply's, 0x81 to 0x96, so of any method but getcreds:
 * TUSHALETS_READ + TUSHALETS_REPLY, not TUSHALETS_READ. `code` is negative. */
tushalets_written tushalets_write_failure(uint32_t id, uint8_t type, int32_t code, uint8_t *out, size_t out_len);

/* Writes the unknown response: five bytes. */
tushalets_written tushalets_write_unknown_response(uint32_t id, uint8_t *out, size_t out_len);

/* The table of outstanding requests, for a service: which ids wait for a reply, and the type of each one's request. It
 * is TUSHALETS_RECORDS words that the service keeps, and lends to each call with their number. A new table is all 0, as
 * {0} or tushalets_empty makes it; from then on only these functions change its words. One word is one record:
 *   free     0
 *   held     bits 0 to 31 the id, bits 32 to 39 the type of the request, bit 48 set, all other bits 0
 * Words are good for one version.
 *
 * A table is sound where it has TUSHALETS_RECORDS words, each is a record, no id is held twice and every held type is
 * below TUSHALETS_REPLY. What these functions leave of a sound table is sound. All but tushalets_empty refuse any other
 * as TUSHALETS_UNSOUND_TABLE, before they look at anything else. A refused call changes no word.
 *
 * A request whose reply never comes, or that could not be sent, stays outstanding; only emptying removes it. */

/* Frees every record, whatever the words were. Answers 0, or TUSHALETS_UNSOUND_TABLE where there are not
 * TUSHALETS_RECORDS words. The place of a refusal is 0. */
uint32_t tushalets_empty(uint64_t *records, size_t records_len);

/* Enters a request, before it is sent, into the first free record. Answers 0, or the number of a refusal. After the
 * table's own these are, in this order, TUSHALETS_UNEXPECTED_TYPE for a type of TUSHALETS_REPLY or above,
 * TUSHALETS_ID_OUTSTANDING and TUSHALETS_TABLE_FULL. The place of a refusal is 0. */
uint32_t tushalets_enter(uint64_t *records, size_t records_len, uint32_t id, uint8_t type);

/* Reads a reply, and frees the record of its request. The answer is that of tushalets_read_reply where the id is
 * outstanding and the reply's type is TUSHALETS_REPLY more than the request's, or TUSHALETS_UNKNOWN_RESPONSE. Else it
 * is a refusal: after the table's own these are, in this order, the reader's with its place,
 * TUSHALETS_ID_NOT_OUTSTANDING and TUSHALETS_TYPE_MISMATCH, whose place is 0 as that of the table's own. */
tushalets_reading tushalets_arrive(uint64_t *records, size_t records_len, const uint8_t *message, size_t message_len);

/* For an operator: how many requests are outstanding, and whether and with which type this id is. */
tushalets_looked tushalets_look(const uint64_t *records, size_t records_len, uint32_t id);

/* Whether the library that is linked has the version of this header. */
static inline int tushalets_fits(void)
{
    return tushalets_version() == TUSHALETS_VERSION;
}

/* The layout of the answers, in which the library returns them. An array of negative size does not compile. */
typedef char tushalets_reading_has_168_bytes[sizeof(tushalets_reading) == 168 ? 1 : -1];
typedef char tushalets_reading_has_fields_at_32[offsetof(tushalets_reading, fields) == 32 ? 1 : -1];
typedef char tushalets_name_has_32_bytes[sizeof(tushalets_name) == 32 ? 1 : -1];
typedef char tushalets_written_has_24_bytes[sizeof(tushalets_written) == 24 ? 1 : -1];
typedef char tushalets_fronted_has_24_bytes[sizeof(tushalets_fronted) == 24 ? 1 : -1];
typedef char tushalets_looked_has_24_bytes[sizeof(tushalets_looked) == 24 ? 1 : -1];

#ifdef __cplusplus
}
#endif

#endif
