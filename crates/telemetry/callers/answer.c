/* Answers lines `TYPE ORDER BYTES`, as run-examples says, by telemetry.h. Made by `tools/derive --library`. */
#include "telemetry.h"

#include <stdio.h>
#include <stdlib.h>
#include <string.h>

/* The most characters of a line. */
#define MOST 1000000

static char line[MOST];
static char kind[MOST];
static char hex[MOST];

/* Memory of just so many bytes. */
static unsigned char *room_of(telemetry_size count) {
    unsigned char *found = (unsigned char *)malloc(count == 0 ? 1 : count);
    if (found == NULL) {
        exit(1);
    }
    return found;
}

/* Prints bytes in hex, or `-`. */
static void print_hex(const unsigned char *start, telemetry_size length) {
    printf(length == 0 ? " -" : " ");
    for (telemetry_size at = 0; at < length; at++) {
        printf("%02x", start[at]);
    }
}

static void print_bytes(struct telemetry_bytes it) {
    print_hex(it.at, it.length);
}

static void print_reading(const struct telemetry_reading *it) {
    printf(" %u", it->second);
    printf(" %d", it->value);
    printf(" %u", it->is_exact);
}

/* Prints a list, which has to hold just as many items as it says. */
static void print_list_of_reading(struct telemetry_list it) {
    printf(" %lu", it.count);
    for (telemetry_size at = 0; at < it.count; at++) {
        struct telemetry_reading item;
        if (telemetry_reading_next(&it.items, it.order, &item) != TELEMETRY_OK) {
            exit(1);
        }
        print_reading(&item);
    }
    if (it.items.left.length != 0) {
        exit(1);
    }
}

static void print_message(const struct telemetry_message *it) {
    if (it->tag == 1) {
        printf(" Ping");
    }
    if (it->tag == 2) {
        printf(" Hello");
        print_bytes(it->hello.name);
        printf(" "); printf("%02x", it->hello.version[0]); printf("%02x", it->hello.version[1]); printf("%02x", it->hello.version[2]);
        if (it->hello.mail.is_some) { printf(" some"); print_bytes(it->hello.mail.value); } else { printf(" none"); }
    }
    if (it->tag == 3) {
        printf(" Measured");
        printf(" %u", it->measured.sensor);
        print_reading(&it->measured.reading);
    }
    if (it->tag == 4) {
        printf(" Blob");
        print_bytes(it->blob.t0);
    }
    if (it->tag == 5) {
        printf(" Measurements");
        printf(" %u", it->measurements.sensor);
        print_list_of_reading(it->measurements.readings);
    }
}

/* Prints what is written of a view, in memory of just so many bytes. One byte less is too short. */
static void write_reading(const struct telemetry_reading *it, unsigned int order) {
    telemetry_size size = 0, needed;
    unsigned char *buffer = room_of(0);
    unsigned int answer = telemetry_reading_write(it, order, buffer, 0, &size);
    free(buffer);
    if (answer != (size == 0 ? TELEMETRY_OK : TELEMETRY_OUTPUT_BUFFER_IS_TOO_SMALL)) {
        exit(1);
    }
    buffer = room_of(size);
    if (telemetry_reading_write(it, order, buffer, size, &needed) != TELEMETRY_OK || needed != size) {
        exit(1);
    }
    printf(" =");
    print_hex(buffer, size);
    if (size != 0 && (telemetry_reading_write(it, order, buffer, size - 1, &needed) != TELEMETRY_OUTPUT_BUFFER_IS_TOO_SMALL
        || needed != size)) {
        exit(1);
    }
    free(buffer);
}

/* Prints what is written of a view, in memory of just so many bytes. One byte less is too short. */
static void write_message(const struct telemetry_message *it, unsigned int order) {
    telemetry_size size = 0, needed;
    unsigned char *buffer = room_of(0);
    unsigned int answer = telemetry_message_write(it, order, buffer, 0, &size);
    free(buffer);
    if (answer != (size == 0 ? TELEMETRY_OK : TELEMETRY_OUTPUT_BUFFER_IS_TOO_SMALL)) {
        exit(1);
    }
    buffer = room_of(size);
    if (telemetry_message_write(it, order, buffer, size, &needed) != TELEMETRY_OK || needed != size) {
        exit(1);
    }
    printf(" =");
    print_hex(buffer, size);
    if (size != 0 && (telemetry_message_write(it, order, buffer, size - 1, &needed) != TELEMETRY_OUTPUT_BUFFER_IS_TOO_SMALL
        || needed != size)) {
        exit(1);
    }
    free(buffer);
}

/* Reads what was checked, and prints it. It has to be of the same size, also as the one value of a walk. */
static void show(const unsigned char *bytes, telemetry_size length, unsigned int order, telemetry_size size) {
    if (strcmp(kind, "reading") == 0) {
        struct telemetry_reading view, again;
        struct telemetry_walk walk;
        telemetry_size found;
        walk.left.at = bytes;
        walk.left.length = length;
        if (telemetry_reading_read(bytes, length, order, &view, &found) != 0 || found != size
            || telemetry_reading_next(&walk, order, &again) != 0 || walk.left.at != bytes + size
            || walk.left.length != length - size) {
            exit(1);
        }
        print_reading(&again);
        print_reading(&view);
        write_reading(&view, order);
    }
    if (strcmp(kind, "message") == 0) {
        struct telemetry_message view, again;
        struct telemetry_walk walk;
        telemetry_size found;
        walk.left.at = bytes;
        walk.left.length = length;
        if (telemetry_message_read(bytes, length, order, &view, &found) != 0 || found != size
            || telemetry_message_next(&walk, order, &again) != 0 || walk.left.at != bytes + size
            || walk.left.length != length - size) {
            exit(1);
        }
        print_message(&again);
        print_message(&view);
        write_message(&view, order);
    }
    (void)bytes, (void)length, (void)order, (void)size;
}

/* What a check of a type answers, and the size that it sets. */
static unsigned int check(const unsigned char *bytes, telemetry_size length, unsigned int order, telemetry_size *size) {
    *size = 0;
    if (strcmp(kind, "reading") == 0) {
        return telemetry_reading_check(bytes, length, order, size);
    }
    if (strcmp(kind, "message") == 0) {
        return telemetry_message_check(bytes, length, order, size);
    }
    if (strcmp(kind, "line") == 0) {
        return telemetry_line_check_whole(bytes, length, order);
    }
    fprintf(stderr, "there is no type %s\n", kind);
    exit(1);
}

/* The bytes of a line, in memory of just their number, so that a read past them is found. */
static unsigned char *bytes_of(const char *text, telemetry_size *length) {
    telemetry_size count = strcmp(text, "-") == 0 ? 0 : strlen(text) / 2;
    unsigned char *found = room_of(count);
    for (telemetry_size at = 0; at < count; at++) {
        char digits[3] = {text[2 * at], text[2 * at + 1], 0};
        found[at] = (unsigned char)strtoul(digits, NULL, 16);
    }
    *length = count;
    return found;
}

int main(void) {
    unsigned int order;
    if (telemetry_source() != TELEMETRY_SOURCE) {
        return 1;
    }
    while (fgets(line, MOST, stdin) != NULL) {
        telemetry_size length, size;
        unsigned char *bytes;
        unsigned int answer;
        if (sscanf(line, "%s %u %s", kind, &order, hex) != 3) {
            return 1;
        }
        bytes = bytes_of(hex, &length);
        answer = check(bytes, length, order, &size);
        printf("%u %lu", answer, size);
        if (answer == 0) {
            show(bytes, length, order, size);
        }
        printf("\n");
        free(bytes);
    }
    return 0;
}
