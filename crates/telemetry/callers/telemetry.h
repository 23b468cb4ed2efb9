/* The types of `messages.rs`, for callers in C and C++. It includes no other header.

   Made from `messages.rs` by `tools/derive --library`: change that, and make this again.

   What sensors send: who they are, and what they measured. */
#ifndef TELEMETRY_H
#define TELEMETRY_H

/* The version of what crosses: in one version no name, number or layout below gets another meaning. */
#define TELEMETRY_VERSION 1

/* The number of the file that this was made of: `telemetry_source()` is that of the library. */
#define TELEMETRY_SOURCE 2946043619u

#ifdef __cplusplus
extern "C" {
#endif

/* A number of bytes. x86-64, but not Windows: the next line fails to compile elsewhere. */
typedef unsigned long telemetry_size;
typedef char telemetry_fits[sizeof(telemetry_size) == 8 && sizeof(unsigned int) == 4 ? 1 : -1];

/* What calls answer. */
enum telemetry_answer {
    /* the bytes are as they should be */
    TELEMETRY_OK = 0,
    /* a number that should be a character is none */
    TELEMETRY_INVALID_CHAR = 1,
    /* a tag that no variant has, or in a view a flag that is neither 0 nor 1 */
    TELEMETRY_INVALID_ENUM_VARIANT = 2,
    /* a text is not UTF-8 */
    TELEMETRY_INVALID_UTF8 = 3,
    /* the seconds of a time do not fit into 64 bits */
    TELEMETRY_INVALID_SYSTEM_TIME = 4,
    /* a number that must not be zero is zero */
    TELEMETRY_ZERO_NON_ZERO = 5,
    /* a length or a size does not fit, or in a view bytes are not so many items of a list */
    TELEMETRY_OUT_OF_RANGE_LENGTH = 6,
    /* a size does not fit into 64 bits, which never comes */
    TELEMETRY_OUT_OF_RANGE_USIZE = 7,
    /* the bytes end too soon: with more of them there may be a value */
    TELEMETRY_UNEXPECTED_END_OF_INPUT = 8,
    /* a buffer has no room, which no call answers */
    TELEMETRY_UNEXPECTED_END_OF_OUTPUT_BUFFER = 9,
    /* the bytes are fewer than any value has: with more of them there may be one */
    TELEMETRY_INPUT_BUFFER_IS_TOO_SMALL = 10,
    /* the buffer is shorter than what is written */
    TELEMETRY_OUTPUT_BUFFER_IS_TOO_SMALL = 11,
    /* a length is another than the field says that tells it */
    TELEMETRY_LENGTH_IS_NOT_THE_SAME_AS_LENGTH_ATTRIBUTE = 12,
    /* other bytes stand where a constant should */
    TELEMETRY_EXPECTED_CONSTANT = 13,
    /* a value that borrows is read where nothing is lent, which no check answers */
    TELEMETRY_UNSIZED = 14,
    /* numbers lie in the other byte order */
    TELEMETRY_ENDIANNESS_MISMATCH = 15,
    /* the encoding is not the canonical one, which no check answers */
    TELEMETRY_NOT_WRITTEN_FORM = 16,
    /* a call of a device failed, which no check answers */
    TELEMETRY_IO_ERROR = 17,
    /* memory lacks, and nothing is known of the bytes */
    TELEMETRY_OUT_OF_MEMORY = 18,
    /* an error of the type's own */
    TELEMETRY_CUSTOM = 19,
    /* the number of the byte order is none of the two */
    TELEMETRY_UNKNOWN_ORDER = 100
};

/* Whether an answer says that the bytes ended too soon, so that more of them may help. */
#define TELEMETRY_ENDS_TOO_SOON(answer) ((answer) == 8u || (answer) == 10u)

/* Byte orders. */
enum telemetry_order {
    /* the least digit first */
    TELEMETRY_LITTLE_ENDIAN = 0,
    /* the greatest digit first */
    TELEMETRY_BIG_ENDIAN = 1
};

/* What each call relies on, and no proof sees:
   - `bytes` is not null, even where `length` is 0, and so many bytes can be read there.
   - `size`, `view`, `walk` and `item` are not null, point to no two overlapping places, and can be written.
   - What stands in `view` before a read is not read. What it shows after it lies in the bytes of that call.
   - A view that is written was set by a read, or began as zeros. Where a `length` in it is not 0, so many bytes
     can be read at the pointer beside it. The structs of other variants than that of the tag do not matter.
   - `buffer` is not null, even where `room` is 0, and so many bytes can be read and written there. No byte of
     it lies in the view, or in what the view shows.
   - Nothing writes to the bytes before the call returns. No call changes them, or keeps a pointer.
   - `malloc`, `realloc` and `free` are those of the C library, or keep its promises.
   - No call is made from a signal handler, or in a process forked from one with several threads.
   Calls may be made from several threads at once. */

/* Tells the file that the library was made of: TELEMETRY_SOURCE, where this header fits it. */
unsigned int telemetry_source(void);

/* Bytes that lie in those that were read, so many of them: they stay while those stay. None is behind a text. */
struct telemetry_bytes {
    const unsigned char *at;
    telemetry_size length;
};

/* A walk over values that stand one after another: the bytes that are left. It begins as all of them. */
struct telemetry_walk {
    struct telemetry_bytes left;
};

/* A list that lies in the bytes that were read: its items, how many they are, and their byte order. The call
   that takes an item from a copy of the walk `items`, in that order, is named where the list stands: `count`
   times it answers 0, and then nothing is left. In a list that is written `items` are so many encodings in the
   order `order`, whatever order is written. */
struct telemetry_list {
    struct telemetry_walk items;
    telemetry_size count;
    unsigned int order; /* TELEMETRY_LITTLE_ENDIAN or TELEMETRY_BIG_ENDIAN */
};

/* What a `Reading` shows. */
struct telemetry_reading {
    unsigned int second;
    int value;
    unsigned char is_exact; /* 0 or 1 */
};

struct telemetry_maybe_text {
    unsigned char is_some; /* 0 or 1 */
    struct telemetry_bytes value; /* UTF-8 */
};

/* The tags of `Message`. */
enum telemetry_message_tag {
    TELEMETRY_MESSAGE_PING = 1,
    TELEMETRY_MESSAGE_HELLO = 2,
    TELEMETRY_MESSAGE_MEASURED = 3,
    TELEMETRY_MESSAGE_BLOB = 4,
    TELEMETRY_MESSAGE_MEASUREMENTS = 5
};

struct telemetry_message_hello {
    struct telemetry_bytes name; /* UTF-8 */
    unsigned char version[3];
    struct telemetry_maybe_text mail;
};

struct telemetry_message_measured {
    unsigned short sensor;
    struct telemetry_reading reading;
};

struct telemetry_message_blob {
    struct telemetry_bytes t0;
};

struct telemetry_message_measurements {
    unsigned short sensor;
    struct telemetry_list readings; /* by telemetry_reading_next */
};

/* What a `Message` shows: the tag, and the struct of its variant. The others show nothing. */
struct telemetry_message {
    unsigned int tag;
    struct telemetry_message_hello hello;
    struct telemetry_message_measured measured;
    struct telemetry_message_blob blob;
    struct telemetry_message_measurements measurements;
};

/* `Reading`: What a sensor measured.

   Says whether the bytes begin with an encoding of one: 0 where they do, and `size` is then how many bytes it
   has; else why not, and `size` is how many bytes were read before that. */
unsigned int telemetry_reading_check(
    const unsigned char *bytes, telemetry_size length, unsigned int order, telemetry_size *size);

/* Reads the `Reading` that the bytes begin with. The answer and `size` are those of its check. Where the answer
   is 0, `view` shows the value, and else it stays as it is. */
unsigned int telemetry_reading_read(
    const unsigned char *bytes, telemetry_size length, unsigned int order,
    struct telemetry_reading *view, telemetry_size *size);

/* Takes a `Reading` from a walk, while bytes are left. Where the answer is not 0, the walk and `view` stay as
   they are. */
unsigned int telemetry_reading_next(
    struct telemetry_walk *walk, unsigned int order, struct telemetry_reading *view);

/* Writes the `Reading` that `view` shows to the front of `buffer`, which has `room` bytes. The answer is 0 where
   that fits, and `size` is then how many bytes it takes. It is TELEMETRY_OUTPUT_BUFFER_IS_TOO_SMALL where `room`
   is less, and `size` is then how much is needed. Else the view shows no value, or one without an encoding, and
   `size` is 0. Where the answer is not 0, the buffer stays as it is. */
unsigned int telemetry_reading_write(
    const struct telemetry_reading *view, unsigned int order, unsigned char *buffer,
    telemetry_size room, telemetry_size *size);

/* `Message`: A message.

   Says whether the bytes begin with an encoding of one: 0 where they do, and `size` is then how many bytes it
   has; else why not, and `size` is how many bytes were read before that. */
unsigned int telemetry_message_check(
    const unsigned char *bytes, telemetry_size length, unsigned int order, telemetry_size *size);

/* Reads the `Message` that the bytes begin with. The answer and `size` are those of its check. Where the answer
   is 0, `view` shows the value, and else it stays as it is. */
unsigned int telemetry_message_read(
    const unsigned char *bytes, telemetry_size length, unsigned int order,
    struct telemetry_message *view, telemetry_size *size);

/* Takes a `Message` from a walk, while bytes are left. Where the answer is not 0, the walk and `view` stay as
   they are. */
unsigned int telemetry_message_next(
    struct telemetry_walk *walk, unsigned int order, struct telemetry_message *view);

/* Writes the `Message` that `view` shows to the front of `buffer`, which has `room` bytes. The answer is 0 where
   that fits, and `size` is then how many bytes it takes. It is TELEMETRY_OUTPUT_BUFFER_IS_TOO_SMALL where `room`
   is less, and `size` is then how much is needed. Else the view shows no value, or one without an encoding, and
   `size` is 0. Where the answer is not 0, the buffer stays as it is. */
unsigned int telemetry_message_write(
    const struct telemetry_message *view, unsigned int order, unsigned char *buffer,
    telemetry_size room, telemetry_size *size);

/* `Line`: A line of a log: a level, and a text up to the end of the bytes.

   Says whether all of the bytes are an encoding of one: 0 where they are, and else why not. */
unsigned int telemetry_line_check_whole(
    const unsigned char *bytes, telemetry_size length, unsigned int order);

#ifdef __cplusplus
}
#endif

#endif
