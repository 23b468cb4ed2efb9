/* Answers lines `TYPE ORDER BYTES`, as run-examples says, by protocol.h. Made by `tools/derive --library`. */
#include "protocol.h"

#include <stdio.h>
#include <stdlib.h>
#include <string.h>

/* The most characters of a line. */
#define MOST 1000000

static char line[MOST];
static char kind[MOST];
static char hex[MOST];

/* Memory of just so many bytes. */
static unsigned char *room_of(protocol_size count) {
    unsigned char *found = (unsigned char *)malloc(count == 0 ? 1 : count);
    if (found == NULL) {
        exit(1);
    }
    return found;
}

/* Prints bytes in hex, or `-`. */
static void print_hex(const unsigned char *start, protocol_size length) {
    printf(length == 0 ? " -" : " ");
    for (protocol_size at = 0; at < length; at++) {
        printf("%02x", start[at]);
    }
}

static void print_bytes(struct protocol_bytes it) {
    print_hex(it.at, it.length);
}

static void print_start(const struct protocol_start *it) {
    print_bytes(it->header);
}

static void print_header(const struct protocol_header *it) {
    printf(" %u", it->version);
    printf(" %u", it->flags);
}

static void print_header2(const struct protocol_header2 *it) {
    printf(" %u", it->version);
    printf(" %u", it->flags);
    printf(" %lu", it->session);
}

static void print_reading(const struct protocol_reading *it) {
    printf(" %u", it->second);
    printf(" %d", it->value);
}

/* Prints a list, which has to hold just as many items as it says. */
static void print_list_of_reading(struct protocol_list it) {
    printf(" %lu", it.count);
    for (protocol_size at = 0; at < it.count; at++) {
        struct protocol_reading item;
        if (protocol_reading_next(&it.items, it.order, &item) != PROTOCOL_OK) {
            exit(1);
        }
        print_reading(&item);
    }
    if (it.items.left.length != 0) {
        exit(1);
    }
}

static void print_message(const struct protocol_message *it) {
    if (it->tag == 1) {
        printf(" Ping");
    }
    if (it->tag == 2) {
        printf(" Hello");
        print_bytes(it->hello.name);
        if (it->hello.mail.is_some) { printf(" some"); print_bytes(it->hello.mail.value); } else { printf(" none"); }
    }
    if (it->tag == 3) {
        printf(" Readings");
        printf(" %u", it->readings.sensor);
        print_list_of_reading(it->readings.list);
    }
    if (it->tag == 4) {
        printf(" Blob");
        print_bytes(it->blob.t0);
    }
    if (it->tag == 5) {
        printf(" Failure");
        printf(" %u", it->failure.code);
        print_bytes(it->failure.text);
    }
    if (it->tag == 255) {
        printf(" Bye");
    }
}

static void print_framed_message(const struct protocol_framed_message *it) {
    printf(" %u", it->size);
    print_message(&it->message);
}

static void print_framed_bytes(const struct protocol_framed_bytes *it) {
    print_bytes(it->bytes);
}

/* Prints what is written of a view, in memory of just so many bytes. One byte less is too short. */
static void write_start(const struct protocol_start *it, unsigned int order) {
    protocol_size size = 0, needed;
    unsigned char *buffer = room_of(0);
    unsigned int answer = protocol_start_write(it, order, buffer, 0, &size);
    free(buffer);
    if (answer != (size == 0 ? PROTOCOL_OK : PROTOCOL_OUTPUT_BUFFER_IS_TOO_SMALL)) {
        exit(1);
    }
    buffer = room_of(size);
    if (protocol_start_write(it, order, buffer, size, &needed) != PROTOCOL_OK || needed != size) {
        exit(1);
    }
    printf(" =");
    print_hex(buffer, size);
    if (size != 0 && (protocol_start_write(it, order, buffer, size - 1, &needed) != PROTOCOL_OUTPUT_BUFFER_IS_TOO_SMALL
        || needed != size)) {
        exit(1);
    }
    free(buffer);
}

/* Prints what is written of a view, in memory of just so many bytes. One byte less is too short. */
static void write_header(const struct protocol_header *it, unsigned int order) {
    protocol_size size = 0, needed;
    unsigned char *buffer = room_of(0);
    unsigned int answer = protocol_header_write(it, order, buffer, 0, &size);
    free(buffer);
    if (answer != (size == 0 ? PROTOCOL_OK : PROTOCOL_OUTPUT_BUFFER_IS_TOO_SMALL)) {
        exit(1);
    }
    buffer = room_of(size);
    if (protocol_header_write(it, order, buffer, size, &needed) != PROTOCOL_OK || needed != size) {
        exit(1);
    }
    printf(" =");
    print_hex(buffer, size);
    if (size != 0 && (protocol_header_write(it, order, buffer, size - 1, &needed) != PROTOCOL_OUTPUT_BUFFER_IS_TOO_SMALL
        || needed != size)) {
        exit(1);
    }
    free(buffer);
}

/* Prints what is written of a view, in memory of just so many bytes. One byte less is too short. */
static void write_header2(const struct protocol_header2 *it, unsigned int order) {
    protocol_size size = 0, needed;
    unsigned char *buffer = room_of(0);
    unsigned int answer = protocol_header2_write(it, order, buffer, 0, &size);
    free(buffer);
    if (answer != (size == 0 ? PROTOCOL_OK : PROTOCOL_OUTPUT_BUFFER_IS_TOO_SMALL)) {
        exit(1);
    }
    buffer = room_of(size);
    if (protocol_header2_write(it, order, buffer, size, &needed) != PROTOCOL_OK || needed != size) {
        exit(1);
    }
    printf(" =");
    print_hex(buffer, size);
    if (size != 0 && (protocol_header2_write(it, order, buffer, size - 1, &needed) != PROTOCOL_OUTPUT_BUFFER_IS_TOO_SMALL
        || needed != size)) {
        exit(1);
    }
    free(buffer);
}

/* Prints what is written of a view, in memory of just so many bytes. One byte less is too short. */
static void write_reading(const struct protocol_reading *it, unsigned int order) {
    protocol_size size = 0, needed;
    unsigned char *buffer = room_of(0);
    unsigned int answer = protocol_reading_write(it, order, buffer, 0, &size);
    free(buffer);
    if (answer != (size == 0 ? PROTOCOL_OK : PROTOCOL_OUTPUT_BUFFER_IS_TOO_SMALL)) {
        exit(1);
    }
    buffer = room_of(size);
    if (protocol_reading_write(it, order, buffer, size, &needed) != PROTOCOL_OK || needed != size) {
        exit(1);
    }
    printf(" =");
    print_hex(buffer, size);
    if (size != 0 && (protocol_reading_write(it, order, buffer, size - 1, &needed) != PROTOCOL_OUTPUT_BUFFER_IS_TOO_SMALL
        || needed != size)) {
        exit(1);
    }
    free(buffer);
}

/* Prints what is written of a view, in memory of just so many bytes. One byte less is too short. */
static void write_message(const struct protocol_message *it, unsigned int order) {
    protocol_size size = 0, needed;
    unsigned char *buffer = room_of(0);
    unsigned int answer = protocol_message_write(it, order, buffer, 0, &size);
    free(buffer);
    if (answer != (size == 0 ? PROTOCOL_OK : PROTOCOL_OUTPUT_BUFFER_IS_TOO_SMALL)) {
        exit(1);
    }
    buffer = room_of(size);
    if (protocol_message_write(it, order, buffer, size, &needed) != PROTOCOL_OK || needed != size) {
        exit(1);
    }
    printf(" =");
    print_hex(buffer, size);
    if (size != 0 && (protocol_message_write(it, order, buffer, size - 1, &needed) != PROTOCOL_OUTPUT_BUFFER_IS_TOO_SMALL
        || needed != size)) {
        exit(1);
    }
    free(buffer);
}

/* Prints what is written of a view, in memory of just so many bytes. One byte less is too short. */
static void write_framed_message(const struct protocol_framed_message *it, unsigned int order) {
    protocol_size size = 0, needed;
    unsigned char *buffer = room_of(0);
    unsigned int answer = protocol_framed_message_write(it, order, buffer, 0, &size);
    free(buffer);
    if (answer != (size == 0 ? PROTOCOL_OK : PROTOCOL_OUTPUT_BUFFER_IS_TOO_SMALL)) {
        exit(1);
    }
    buffer = room_of(size);
    if (protocol_framed_message_write(it, order, buffer, size, &needed) != PROTOCOL_OK || needed != size) {
        exit(1);
    }
    printf(" =");
    print_hex(buffer, size);
    if (size != 0 && (protocol_framed_message_write(it, order, buffer, size - 1, &needed) != PROTOCOL_OUTPUT_BUFFER_IS_TOO_SMALL
        || needed != size)) {
        exit(1);
    }
    free(buffer);
}

/* Prints what is written of a view, in memory of just so many bytes. One byte less is too short. */
static void write_framed_bytes(const struct protocol_framed_bytes *it, unsigned int order) {
    protocol_size size = 0, needed;
    unsigned char *buffer = room_of(0);
    unsigned int answer = protocol_framed_bytes_write(it, order, buffer, 0, &size);
    free(buffer);
    if (answer != (size == 0 ? PROTOCOL_OK : PROTOCOL_OUTPUT_BUFFER_IS_TOO_SMALL)) {
        exit(1);
    }
    buffer = room_of(size);
    if (protocol_framed_bytes_write(it, order, buffer, size, &needed) != PROTOCOL_OK || needed != size) {
        exit(1);
    }
    printf(" =");
    print_hex(buffer, size);
    if (size != 0 && (protocol_framed_bytes_write(it, order, buffer, size - 1, &needed) != PROTOCOL_OUTPUT_BUFFER_IS_TOO_SMALL
        || needed != size)) {
        exit(1);
    }
    free(buffer);
}

/* Reads what was checked, and prints it. It has to be of the same size, also as the one value of a walk. */
static void show(const unsigned char *bytes, protocol_size length, unsigned int order, protocol_size size) {
    if (strcmp(kind, "start") == 0) {
        struct protocol_start view, again;
        struct protocol_walk walk;
        protocol_size found;
        walk.left.at = bytes;
        walk.left.length = length;
        if (protocol_start_read(bytes, length, order, &view, &found) != 0 || found != size
            || protocol_start_next(&walk, order, &again) != 0 || walk.left.at != bytes + size
            || walk.left.length != length - size) {
            exit(1);
        }
        print_start(&again);
        print_start(&view);
        write_start(&view, order);
    }
    if (strcmp(kind, "header") == 0) {
        struct protocol_header view, again;
        struct protocol_walk walk;
        protocol_size found;
        walk.left.at = bytes;
        walk.left.length = length;
        if (protocol_header_read(bytes, length, order, &view, &found) != 0 || found != size
            || protocol_header_next(&walk, order, &again) != 0 || walk.left.at != bytes + size
            || walk.left.length != length - size) {
            exit(1);
        }
        print_header(&again);
        print_header(&view);
        write_header(&view, order);
    }
    if (strcmp(kind, "header2") == 0) {
        struct protocol_header2 view, again;
        struct protocol_walk walk;
        protocol_size found;
        walk.left.at = bytes;
        walk.left.length = length;
        if (protocol_header2_read(bytes, length, order, &view, &found) != 0 || found != size
            || protocol_header2_next(&walk, order, &again) != 0 || walk.left.at != bytes + size
            || walk.left.length != length - size) {
            exit(1);
        }
        print_header2(&again);
        print_header2(&view);
        write_header2(&view, order);
    }
    if (strcmp(kind, "reading") == 0) {
        struct protocol_reading view, again;
        struct protocol_walk walk;
        protocol_size found;
        walk.left.at = bytes;
        walk.left.length = length;
        if (protocol_reading_read(bytes, length, order, &view, &found) != 0 || found != size
            || protocol_reading_next(&walk, order, &again) != 0 || walk.left.at != bytes + size
            || walk.left.length != length - size) {
            exit(1);
        }
        print_reading(&again);
        print_reading(&view);
        write_reading(&view, order);
    }
    if (strcmp(kind, "message") == 0) {
        struct protocol_message view, again;
        struct protocol_walk walk;
        protocol_size found;
        walk.left.at = bytes;
        walk.left.length = length;
        if (protocol_message_read(bytes, length, order, &view, &found) != 0 || found != size
            || protocol_message_next(&walk, order, &again) != 0 || walk.left.at != bytes + size
            || walk.left.length != length - size) {
            exit(1);
        }
        print_message(&again);
        print_message(&view);
        write_message(&view, order);
    }
    if (strcmp(kind, "framed_message") == 0) {
        struct protocol_framed_message view, again;
        struct protocol_walk walk;
        protocol_size found;
        walk.left.at = bytes;
        walk.left.length = length;
        if (protocol_framed_message_read(bytes, length, order, &view, &found) != 0 || found != size
            || protocol_framed_message_next(&walk, order, &again) != 0 || walk.left.at != bytes + size
            || walk.left.length != length - size) {
            exit(1);
        }
        print_framed_message(&again);
        print_framed_message(&view);
        write_framed_message(&view, order);
    }
    if (strcmp(kind, "framed_bytes") == 0) {
        struct protocol_framed_bytes view, again;
        struct protocol_walk walk;
        protocol_size found;
        walk.left.at = bytes;
        walk.left.length = length;
        if (protocol_framed_bytes_read(bytes, length, order, &view, &found) != 0 || found != size
            || protocol_framed_bytes_next(&walk, order, &again) != 0 || walk.left.at != bytes + size
            || walk.left.length != length - size) {
            exit(1);
        }
        print_framed_bytes(&again);
        print_framed_bytes(&view);
        write_framed_bytes(&view, order);
    }
    (void)bytes, (void)length, (void)order, (void)size;
}

/* What a check of a type answers, and the size that it sets. */
static unsigned int check(const unsigned char *bytes, protocol_size length, unsigned int order, protocol_size *size) {
    *size = 0;
    if (strcmp(kind, "start") == 0) {
        return protocol_start_check(bytes, length, order, size);
    }
    if (strcmp(kind, "header") == 0) {
        return protocol_header_check(bytes, length, order, size);
    }
    if (strcmp(kind, "header2") == 0) {
        return protocol_header2_check(bytes, length, order, size);
    }
    if (strcmp(kind, "reading") == 0) {
        return protocol_reading_check(bytes, length, order, size);
    }
    if (strcmp(kind, "message") == 0) {
        return protocol_message_check(bytes, length, order, size);
    }
    if (strcmp(kind, "framed_message") == 0) {
        return protocol_framed_message_check(bytes, length, order, size);
    }
    if (strcmp(kind, "framed_bytes") == 0) {
        return protocol_framed_bytes_check(bytes, length, order, size);
    }
    fprintf(stderr, "there is no type %s\n", kind);
    exit(1);
}

/* The bytes of a line, in memory of just their number, so that a read past them is found. */
static unsigned char *bytes_of(const char *text, protocol_size *length) {
    protocol_size count = strcmp(text, "-") == 0 ? 0 : strlen(text) / 2;
    unsigned char *found = room_of(count);
    for (protocol_size at = 0; at < count; at++) {
        char digits[3] = {text[2 * at], text[2 * at + 1], 0};
        found[at] = (unsigned char)strtoul(digits, NULL, 16);
    }
    *length = count;
    return found;
}

int main(void) {
    unsigned int order;
    if (protocol_source() != PROTOCOL_SOURCE) {
        return 1;
    }
    while (fgets(line, MOST, stdin) != NULL) {
        protocol_size length, size;
        unsigned char *bytes;
        unsigned int answer;
        if (sscanf(line, "%s %u %s", kind, &order, hex) != 3) {
            return 1;
        }
        bytes = bytes_of(hex, &length);
        answer = check(bytes, length, order, &size);
        printf("%u %lu", answer, size);
        if (answer == 0) {
            show(bytes, length, order, size);
        }
        printf("\n");
        free(bytes);
    }
    return 0;
}
