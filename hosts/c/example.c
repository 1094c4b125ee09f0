/* A provider's turn in C: a request read, listed and put to the front; replies written and read back. Then a service's
 * table: requests entered, replies arriving. */
#include <stdio.h>
#include <string.h>

#include "tushalets.h"

/* Cells of the fields that are shown here (the table in tushalets.h). */
enum { RESULT = 0, ACCESS_PATH = 0, ACCESS_MODE = 2, READDIR_ITEMS = 1, GETCREDS_CREDS = 0 };

/* Bytes of an unknown response, of a failure, and of a read reply with one byte of data. */
enum { HEADER_SIZE = 5, FAILURE_SIZE = 9, READ_REPLY_SIZE = 14 };

/* The result for a file that is not there. */
enum { ENOENT_RESULT = -2 };

enum { ROOM = 64, FILLING = 0xaa };

/* access, id 7, path "/a", mode 4 */
static const uint8_t access_request[] = {0, 0, 0, 7, TUSHALETS_ACCESS, 0, 0, 0, 2, '/', 'a', 4};

/* unlink, id 5, with a path that is no text */
static const uint8_t damaged_request[] = {0, 0, 0, 5, TUSHALETS_UNLINK, 0, 0, 0, 1, 0x80};

/* id 35, a type that no method has */
static const uint8_t unknown_request[] = {0, 0, 0, 0x23, 0x42};

/* For arguments that a type does not have: words that are not looked at, and pointers that are not null. */
static const uint64_t no_numbers[14] = {0};
static const uint8_t no_bytes[1] = {0};
static const uint32_t no_lengths[1] = {0};

static void print_bytes(const uint8_t *bytes, size_t len)
{
    size_t i;
    for (i = 0; i < len; i++) printf(" %02x", bytes[i]);
    printf("\n");
}

static void print_text(const uint8_t *bytes, size_t len)
{
    fwrite(bytes, 1, len, stdout);
}

static void show_request(const uint8_t *message, size_t len)
{
    uint8_t listing[TUSHALETS_LONGEST_LISTING];
    tushalets_reading request = tushalets_read_request(message, len);
    tushalets_written listed = tushalets_list_request(message, len, listing, sizeof listing);
    if (request.shape != TUSHALETS_SHAPE_KNOWN || request.type != TUSHALETS_ACCESS) return;
    printf("request access id %u path ", request.id);
    print_text(message + request.fields[ACCESS_PATH], request.fields[ACCESS_PATH + 1]);
    printf(" mode %d known %zu of %zu\n", (int)(int32_t)(uint32_t)request.fields[ACCESS_MODE], request.known, len);
    printf("listing\n");
    print_text(listing, listed.len);
}

static void show_front(const char *which, const uint8_t *message, size_t len, size_t room)
{
    uint8_t out[ROOM];
    tushalets_fronted fronted = tushalets_front(message, len, out, room);
    printf("front, %s, room %zu:", which, room);
    switch (fronted.act) {
    case TUSHALETS_ACT_HANDED_ON:
        printf(" handed on\n");
        break;
    case TUSHALETS_ACT_STORED:
        print_bytes(out, fronted.len);
        break;
    default:
        printf(" refused %u at %zu\n", fronted.number, fronted.place);
    }
}

static void show_names(const uint8_t *message, size_t len, const tushalets_reading *reply)
{
    size_t first = reply->fields[READDIR_ITEMS];
    uint32_t count = (uint32_t)reply->fields[READDIR_ITEMS + 1];
    tushalets_name step = tushalets_next_name(message, len, first, count);
    while (step.found) {
        printf("name ");
        print_text(message + step.start, step.len);
        printf("\n");
        step = tushalets_next_name(message, len, step.at, step.left);
    }
}

static int is_success_of(const tushalets_reading *reply, uint32_t method)
{
    return reply->shape == TUSHALETS_SHAPE_SUCCESS && reply->type == method + TUSHALETS_REPLY;
}

/* What a reply is, and its result. The unknown response and a getcreds reply have none. */
static void print_outcome(const tushalets_reading *reply)
{
    if (reply->shape == TUSHALETS_SHAPE_UNKNOWN) {
        printf(" unknown response");
        return;
    }
    printf(" %s", reply->shape == TUSHALETS_SHAPE_FAILURE ? "failure" : "success");
    if (!is_success_of(reply, TUSHALETS_GETCREDS)) printf(" %d", (int)(int32_t)(uint32_t)reply->fields[RESULT]);
}

static void show_reply(const uint8_t *message, size_t len, const tushalets_reading *reply)
{
    if (reply->shape == TUSHALETS_SHAPE_REFUSED) {
        printf("refused %u at %zu\n", reply->number, reply->place);
        return;
    }
    printf("reply %02x id %u", reply->type, reply->id);
    print_outcome(reply);
    printf(" known %zu of %zu\n", reply->known, len);
    if (is_success_of(reply, TUSHALETS_READDIR)) show_names(message, len, reply);
    if (is_success_of(reply, TUSHALETS_GETCREDS)) {
        printf("creds ");
        print_text(message + reply->fields[GETCREDS_CREDS], reply->fields[GETCREDS_CREDS + 1]);
        printf("\n");
    }
}

static void show_written(const uint8_t *out, size_t len)
{
    tushalets_reading reply = tushalets_read_reply(out, len);
    printf("written");
    print_bytes(out, len);
    show_reply(out, len, &reply);
}

static void show_replies(void)
{
    static const uint8_t names[] = {'.', '.', '.', 'h', 'e', 'l', 'l', 'o'};
    static const uint32_t lengths[] = {1, 2, 5};
    static const uint8_t creds[] = {'u', 's', 'e', 'r'};
    uint8_t out[ROOM];
    tushalets_written written;

    written = tushalets_write_failure(7, TUSHALETS_ACCESS + TUSHALETS_REPLY, ENOENT_RESULT, out, sizeof out);
    show_written(out, written.len);

    written = tushalets_write_reply(2, TUSHALETS_READDIR + TUSHALETS_REPLY, 0, no_numbers, names, sizeof names,
                                    lengths, sizeof lengths / sizeof lengths[0], out, sizeof out);
    show_written(out, written.len);

    written = tushalets_write_reply(6, TUSHALETS_GETCREDS + TUSHALETS_REPLY, 0, no_numbers, creds, sizeof creds,
                                    no_lengths, 0, out, sizeof out);
    show_written(out, written.len);

    written = tushalets_write_unknown_response(0x23, out, sizeof out);
    show_written(out, written.len);
}

/* A read reply with one byte of data that claims another number of bytes, or has too little room. */
static void show_refused_write(int32_t result, size_t room)
{
    static const uint8_t data[] = {'a'};
    uint8_t out[ROOM], before[ROOM];
    tushalets_written written;
    memset(out, FILLING, sizeof out);
    memset(before, FILLING, sizeof before);
    written = tushalets_write_reply(9, TUSHALETS_READ + TUSHALETS_REPLY, result, no_numbers, data, sizeof data,
                                    no_lengths, 0, out, room);
    printf("read reply, result %d, room %zu: refused %u at %zu, %zu bytes stored, ", (int)result, room, written.number,
           written.place, written.len);
    printf("%s\n", memcmp(out, before, sizeof out) == 0 ? "buffer as before" : "buffer changed");
}

static void show_entered(uint64_t *records, uint32_t id, uint8_t type)
{
    uint32_t number = tushalets_enter(records, TUSHALETS_RECORDS, id, type);
    printf("enter %u, type %02x: %s %u\n", id, type, number == 0 ? "entered" : "refused", number);
}

/* A failure with this id and of this type arrives. */
static void show_arrived(uint64_t *records, uint32_t id, uint8_t type)
{
    uint8_t out[ROOM];
    tushalets_written written = tushalets_write_failure(id, type, ENOENT_RESULT, out, sizeof out);
    tushalets_reading reply = tushalets_arrive(records, TUSHALETS_RECORDS, out, written.len);
    printf("arrive %u, type %02x: ", id, type);
    show_reply(out, written.len, &reply);
}

static void show_look(const uint64_t *records, uint32_t id)
{
    tushalets_looked looked = tushalets_look(records, TUSHALETS_RECORDS, id);
    printf("look for %u: ", id);
    if (looked.number != 0) {
        printf("refused %u\n", looked.number);
    } else {
        printf("%s, type %02x, outstanding %zu\n", looked.held ? "found" : "missing", looked.type, looked.count);
    }
}

static void show_table(void)
{
    uint64_t records[TUSHALETS_RECORDS] = {0};
    show_entered(records, 7, TUSHALETS_ACCESS);
    show_entered(records, 8, TUSHALETS_READ);
    show_entered(records, 7, TUSHALETS_READ);
    show_look(records, 8);
    show_arrived(records, 9, TUSHALETS_READ + TUSHALETS_REPLY);
    show_arrived(records, 7, TUSHALETS_READ + TUSHALETS_REPLY);
    show_arrived(records, 8, TUSHALETS_READ + TUSHALETS_REPLY);
    show_look(records, 8);

    /* A word that is no record: only emptying takes such a table. */
    records[1] = UINT64_MAX;
    show_look(records, 7);
    printf("empty: %u\n", tushalets_empty(records, TUSHALETS_RECORDS));
    show_look(records, 7);
}

int main(void)
{
    if (!tushalets_fits()) {
        fprintf(stderr, "example: version %d is needed, %u is linked\n", TUSHALETS_VERSION, tushalets_version());
        return 1;
    }
    printf("version %u\n", tushalets_version());
    show_request(access_request, sizeof access_request);
    show_front("whole request", access_request, sizeof access_request, 0);
    show_front("damaged request", damaged_request, sizeof damaged_request, FAILURE_SIZE);
    show_front("damaged request", damaged_request, sizeof damaged_request, FAILURE_SIZE - 1);
    show_front("unknown request", unknown_request, sizeof unknown_request, HEADER_SIZE);
    show_front("no bytes", no_bytes, 0, ROOM);
    show_replies();
    show_refused_write(2, ROOM);
    show_refused_write(1, READ_REPLY_SIZE - 1);
    show_table();
    return 0;
}
