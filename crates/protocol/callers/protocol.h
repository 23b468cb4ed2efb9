/* The types of `crates/speedy_protocol/messages.rs`, for callers in C and C++. It includes no other header.

   Made from `crates/speedy_protocol/messages.rs` by `tools/derive --library`: change that, and make this again.

   What a small protocol says: a header, of one version or the other, and then messages. */
#ifndef PROTOCOL_H
#define PROTOCOL_H

/* The version of what crosses: in one version no name, number or layout below gets another meaning. */
#define PROTOCOL_VERSION 1

/* The number of the file that this was made of: `protocol_source()` is that of the library. */
#define PROTOCOL_SOURCE 116202973u

#ifdef __cplusplus
extern "C" {
#endif

/* A number of bytes. x86-64, but not Windows: the next line fails to compile elsewhere. */
typedef unsigned long protocol_size;
typedef char protocol_fits[sizeof(protocol_size) == 8 && sizeof(unsigned int) == 4 ? 1 : -1];

/* What calls answer. */
enum protocol_answer {
    /* the bytes are as they should be */
    PROTOCOL_OK = 0,
    /* a number that should be a character is none */
    PROTOCOL_INVALID_CHAR = 1,
    /* a tag that no variant has, or in a view a flag that is neither 0 nor 1 */
    PROTOCOL_INVALID_ENUM_VARIANT = 2,
    /* a text is not UTF-8 */
    PROTOCOL_INVALID_UTF8 = 3,
    /* the seconds of a time do not fit into 64 bits */
    PROTOCOL_INVALID_SYSTEM_TIME = 4,
    /* a number that must not be zero is zero */
    PROTOCOL_ZERO_NON_ZERO = 5,
    /* a length or a size does not fit, or in a view bytes are not so many items of a list */
    PROTOCOL_OUT_OF_RANGE_LENGTH = 6,
    /* a size does not fit into 64 bits, which never comes */
    PROTOCOL_OUT_OF_RANGE_USIZE = 7,
    /* the bytes end too soon: with more of them there may be a value */
    PROTOCOL_UNEXPECTED_END_OF_INPUT = 8,
    /* a buffer has no room, which no call answers */
    PROTOCOL_UNEXPECTED_END_OF_OUTPUT_BUFFER = 9,
    /* the bytes are fewer than any value has: with more of them there may be one */
    PROTOCOL_INPUT_BUFFER_IS_TOO_SMALL = 10,
    /* the buffer is shorter than what is written */
    PROTOCOL_OUTPUT_BUFFER_IS_TOO_SMALL = 11,
    /* a length is another than the field says that tells it */
    PROTOCOL_LENGTH_IS_NOT_THE_SAME_AS_LENGTH_ATTRIBUTE = 12,
    /* other bytes stand where a constant should */
    PROTOCOL_EXPECTED_CONSTANT = 13,
    /* a value that borrows is read where nothing is lent, which no check answers */
    PROTOCOL_UNSIZED = 14,
    /* numbers lie in the other byte order */
    PROTOCOL_ENDIANNESS_MISMATCH = 15,
    /* the encoding is not the canonical one, which no check answers */
    PROTOCOL_NOT_WRITTEN_FORM = 16,
    /* a call of a device failed, which no check answers */
    PROTOCOL_IO_ERROR = 17,
    /* memory lacks, and nothing is known of the bytes */
    PROTOCOL_OUT_OF_MEMORY = 18,
    /* an error of the type's own */
    PROTOCOL_CUSTOM = 19,
    /* the number of the byte order is none of the two */
    PROTOCOL_UNKNOWN_ORDER = 100
};

/* Whether an answer says that the bytes ended too soon, so that more of them may help. */
#define PROTOCOL_ENDS_TOO_SOON(answer) ((answer) == 8u || (answer) == 10u)

/* Byte orders. */
enum protocol_order {
    /* the least digit first */
    PROTOCOL_LITTLE_ENDIAN = 0,
    /* the greatest digit first */
    PROTOCOL_BIG_ENDIAN = 1
};

/* What each call relies on, and no proof sees:
   - `bytes` is not null, even where `length` is 0, and so many bytes can be read there.
   - `size`, `view`, `walk` and `item` are not null, point to no two overlapping places, and can be written.
   - What stands in `view` before a read is not read. What it shows after it lies in the bytes of that call.
   - A view that is written was set by a read, or began as zeros. Where a `length` in it is not 0, so many bytes
     can be read at the pointer beside it. The structs of other variants than that of the tag do not matter.
   - `buffer` is not null, even where `room` is 0, and so many bytes can be read and written there. No byte of
     it lies in the view, or in what the view shows.
   - Nothing writes to the bytes before the call returns. No call changes them, or keeps a pointer.
   - `malloc`, `realloc` and `free` are those of the C library, or keep its promises.
   - No call is made from a signal handler, or in a process forked from one with several threads.
   Calls may be made from several threads at once. */

/* Tells the file that the library was made of: PROTOCOL_SOURCE, where this header fits it. */
unsigned int protocol_source(void);

/* Bytes that lie in those that were read, so many of them: they stay while those stay. None is behind a text. */
struct protocol_bytes {
    const unsigned char *at;
    protocol_size length;
};

/* A walk over values that stand one after another: the bytes that are left. It begins as all of them. */
struct protocol_walk {
    struct protocol_bytes left;
};

/* A list that lies in the bytes that were read: its items, how many they are, and their byte order. The call
   that takes an item from a copy of the walk `items`, in that order, is named where the list stands: `count`
   times it answers 0, and then nothing is left. In a list that is written `items` are so many encodings in the
   order `order`, whatever order is written. */
struct protocol_list {
    struct protocol_walk items;
    protocol_size count;
    unsigned int order; /* PROTOCOL_LITTLE_ENDIAN or PROTOCOL_BIG_ENDIAN */
};

/* What a `Start` shows. */
struct protocol_start {
    struct protocol_bytes header;
};

/* What a `Header` shows. */
struct protocol_header {
    unsigned short version;
    unsigned short flags;
};

/* What a `Header2` shows. */
struct protocol_header2 {
    unsigned short version;
    unsigned short flags;
    unsigned long session;
};

/* What a `Reading` shows. */
struct protocol_reading {
    unsigned int second;
    int value;
};

struct protocol_maybe_text {
    unsigned char is_some; /* 0 or 1 */
    struct protocol_bytes value; /* UTF-8 */
};

/* The tags of `Message`. */
enum protocol_message_tag {
    PROTOCOL_MESSAGE_PING = 1,
    PROTOCOL_MESSAGE_HELLO = 2,
    PROTOCOL_MESSAGE_READINGS = 3,
    PROTOCOL_MESSAGE_BLOB = 4,
    PROTOCOL_MESSAGE_FAILURE = 5,
    PROTOCOL_MESSAGE_BYE = 255
};

struct protocol_message_hello {
    struct protocol_bytes name; /* UTF-8 */
    struct protocol_maybe_text mail;
};

struct protocol_message_readings {
    unsigned short sensor;
    struct protocol_list list; /* by protocol_reading_next */
};

struct protocol_message_blob {
    struct protocol_bytes t0;
};

struct protocol_message_failure {
    unsigned int code;
    struct protocol_bytes text; /* UTF-8 */
};

/* What a `Message` shows: the tag, and the struct of its variant. The others show nothing. */
struct protocol_message {
    unsigned int tag;
    struct protocol_message_hello hello;
    struct protocol_message_readings readings;
    struct protocol_message_blob blob;
    struct protocol_message_failure failure;
};

/* What a `FramedMessage` shows. */
struct protocol_framed_message {
    unsigned short size;
    struct protocol_message message;
};

/* What a `FramedBytes` shows. */
struct protocol_framed_bytes {
    struct protocol_bytes bytes;
};

/* `Start`: What a stream begins with: a magic number, and a header of any version after the number of its bytes.

   Says whether the bytes begin with an encoding of one: 0 where they do, and `size` is then how many bytes it
   has; else why not, and `size` is how many bytes were read before that. */
unsigned int protocol_start_check(
    const unsigned char *bytes, protocol_size length, unsigned int order, protocol_size *size);

/* Reads the `Start` that the bytes begin with. The answer and `size` are those of its check. Where the answer is
   0, `view` shows the value, and else it stays as it is. */
unsigned int protocol_start_read(
    const unsigned char *bytes, protocol_size length, unsigned int order,
    struct protocol_start *view, protocol_size *size);

/* Takes a `Start` from a walk, while bytes are left. Where the answer is not 0, the walk and `view` stay as they
   are. */
unsigned int protocol_start_next(
    struct protocol_walk *walk, unsigned int order, struct protocol_start *view);

/* Writes the `Start` that `view` shows to the front of `buffer`, which has `room` bytes. The answer is 0 where
   that fits, and `size` is then how many bytes it takes. It is PROTOCOL_OUTPUT_BUFFER_IS_TOO_SMALL where `room`
   is less, and `size` is then how much is needed. Else the view shows no value, or one without an encoding, and
   `size` is 0. Where the answer is not 0, the buffer stays as it is. */
unsigned int protocol_start_write(
    const struct protocol_start *view, unsigned int order, unsigned char *buffer,
    protocol_size room, protocol_size *size);

/* `Header`: The header of version 1.

   Says whether the bytes begin with an encoding of one: 0 where they do, and `size` is then how many bytes it
   has; else why not, and `size` is how many bytes were read before that. */
unsigned int protocol_header_check(
    const unsigned char *bytes, protocol_size length, unsigned int order, protocol_size *size);

/* Reads the `Header` that the bytes begin with. The answer and `size` are those of its check. Where the answer
   is 0, `view` shows the value, and else it stays as it is. */
unsigned int protocol_header_read(
    const unsigned char *bytes, protocol_size length, unsigned int order,
    struct protocol_header *view, protocol_size *size);

/* Takes a `Header` from a walk, while bytes are left. Where the answer is not 0, the walk and `view` stay as
   they are. */
unsigned int protocol_header_next(
    struct protocol_walk *walk, unsigned int order, struct protocol_header *view);

/* Writes the `Header` that `view` shows to the front of `buffer`, which has `room` bytes. The answer is 0 where
   that fits, and `size` is then how many bytes it takes. It is PROTOCOL_OUTPUT_BUFFER_IS_TOO_SMALL where `room`
   is less, and `size` is then how much is needed. Else the view shows no value, or one without an encoding, and
   `size` is 0. Where the answer is not 0, the buffer stays as it is. */
unsigned int protocol_header_write(
    const struct protocol_header *view, unsigned int order, unsigned char *buffer,
    protocol_size room, protocol_size *size);

/* `Header2`: The header of version 2 has a field more, at its end.

   Says whether the bytes begin with an encoding of one: 0 where they do, and `size` is then how many bytes it
   has; else why not, and `size` is how many bytes were read before that. */
unsigned int protocol_header2_check(
    const unsigned char *bytes, protocol_size length, unsigned int order, protocol_size *size);

/* Reads the `Header2` that the bytes begin with. The answer and `size` are those of its check. Where the answer
   is 0, `view` shows the value, and else it stays as it is. */
unsigned int protocol_header2_read(
    const unsigned char *bytes, protocol_size length, unsigned int order,
    struct protocol_header2 *view, protocol_size *size);

/* Takes a `Header2` from a walk, while bytes are left. Where the answer is not 0, the walk and `view` stay as
   they are. */
unsigned int protocol_header2_next(
    struct protocol_walk *walk, unsigned int order, struct protocol_header2 *view);

/* Writes the `Header2` that `view` shows to the front of `buffer`, which has `room` bytes. The answer is 0 where
   that fits, and `size` is then how many bytes it takes. It is PROTOCOL_OUTPUT_BUFFER_IS_TOO_SMALL where `room`
   is less, and `size` is then how much is needed. Else the view shows no value, or one without an encoding, and
   `size` is 0. Where the answer is not 0, the buffer stays as it is. */
unsigned int protocol_header2_write(
    const struct protocol_header2 *view, unsigned int order, unsigned char *buffer,
    protocol_size room, protocol_size *size);

/* `Reading`: What a sensor measured.

   Says whether the bytes begin with an encoding of one: 0 where they do, and `size` is then how many bytes it
   has; else why not, and `size` is how many bytes were read before that. */
unsigned int protocol_reading_check(
    const unsigned char *bytes, protocol_size length, unsigned int order, protocol_size *size);

/* Reads the `Reading` that the bytes begin with. The answer and `size` are those of its check. Where the answer
   is 0, `view` shows the value, and else it stays as it is. */
unsigned int protocol_reading_read(
    const unsigned char *bytes, protocol_size length, unsigned int order,
    struct protocol_reading *view, protocol_size *size);

/* Takes a `Reading` from a walk, while bytes are left. Where the answer is not 0, the walk and `view` stay as
   they are. */
unsigned int protocol_reading_next(
    struct protocol_walk *walk, unsigned int order, struct protocol_reading *view);

/* Writes the `Reading` that `view` shows to the front of `buffer`, which has `room` bytes. The answer is 0 where
   that fits, and `size` is then how many bytes it takes. It is PROTOCOL_OUTPUT_BUFFER_IS_TOO_SMALL where `room`
   is less, and `size` is then how much is needed. Else the view shows no value, or one without an encoding, and
   `size` is 0. Where the answer is not 0, the buffer stays as it is. */
unsigned int protocol_reading_write(
    const struct protocol_reading *view, unsigned int order, unsigned char *buffer,
    protocol_size room, protocol_size *size);

/* `Message`: A message. Its texts and bytes lie in what it is read from.

   Says whether the bytes begin with an encoding of one: 0 where they do, and `size` is then how many bytes it
   has; else why not, and `size` is how many bytes were read before that. */
unsigned int protocol_message_check(
    const unsigned char *bytes, protocol_size length, unsigned int order, protocol_size *size);

/* Reads the `Message` that the bytes begin with. The answer and `size` are those of its check. Where the answer
   is 0, `view` shows the value, and else it stays as it is. */
unsigned int protocol_message_read(
    const unsigned char *bytes, protocol_size length, unsigned int order,
    struct protocol_message *view, protocol_size *size);

/* Takes a `Message` from a walk, while bytes are left. Where the answer is not 0, the walk and `view` stay as
   they are. */
unsigned int protocol_message_next(
    struct protocol_walk *walk, unsigned int order, struct protocol_message *view);

/* Writes the `Message` that `view` shows to the front of `buffer`, which has `room` bytes. The answer is 0 where
   that fits, and `size` is then how many bytes it takes. It is PROTOCOL_OUTPUT_BUFFER_IS_TOO_SMALL where `room`
   is less, and `size` is then how much is needed. Else the view shows no value, or one without an encoding, and
   `size` is 0. Where the answer is not 0, the buffer stays as it is. */
unsigned int protocol_message_write(
    const struct protocol_message *view, unsigned int order, unsigned char *buffer,
    protocol_size room, protocol_size *size);

/* `FramedMessage`: A message behind the number of its bytes, for callers in other languages.

   Says whether the bytes begin with an encoding of one: 0 where they do, and `size` is then how many bytes it
   has; else why not, and `size` is how many bytes were read before that. */
unsigned int protocol_framed_message_check(
    const unsigned char *bytes, protocol_size length, unsigned int order, protocol_size *size);

/* Reads the `FramedMessage` that the bytes begin with. The answer and `size` are those of its check. Where the
   answer is 0, `view` shows the value, and else it stays as it is. */
unsigned int protocol_framed_message_read(
    const unsigned char *bytes, protocol_size length, unsigned int order,
    struct protocol_framed_message *view, protocol_size *size);

/* Takes a `FramedMessage` from a walk, while bytes are left. Where the answer is not 0, the walk and `view` stay
   as they are. */
unsigned int protocol_framed_message_next(
    struct protocol_walk *walk, unsigned int order, struct protocol_framed_message *view);

/* Writes the `FramedMessage` that `view` shows to the front of `buffer`, which has `room` bytes. The answer is 0
   where that fits, and `size` is then how many bytes it takes. It is PROTOCOL_OUTPUT_BUFFER_IS_TOO_SMALL where
   `room` is less, and `size` is then how much is needed. Else the view shows no value, or one without an
   encoding, and `size` is 0. Where the answer is not 0, the buffer stays as it is. */
unsigned int protocol_framed_message_write(
    const struct protocol_framed_message *view, unsigned int order, unsigned char *buffer,
    protocol_size room, protocol_size *size);

/* `FramedBytes`: A frame with whatever stands in it.

   Says whether the bytes begin with an encoding of one: 0 where they do, and `size` is then how many bytes it
   has; else why not, and `size` is how many bytes were read before that. */
unsigned int protocol_framed_bytes_check(
    const unsigned char *bytes, protocol_size length, unsigned int order, protocol_size *size);

/* Reads the `FramedBytes` that the bytes begin with. The answer and `size` are those of its check. Where the
   answer is 0, `view` shows the value, and else it stays as it is. */
unsigned int protocol_framed_bytes_read(
    const unsigned char *bytes, protocol_size length, unsigned int order,
    struct protocol_framed_bytes *view, protocol_size *size);

/* Takes a `FramedBytes` from a walk, while bytes are left. Where the answer is not 0, the walk and `view` stay
   as they are. */
unsigned int protocol_framed_bytes_next(
    struct protocol_walk *walk, unsigned int order, struct protocol_framed_bytes *view);

/* Writes the `FramedBytes` that `view` shows to the front of `buffer`, which has `room` bytes. The answer is 0
   where that fits, and `size` is then how many bytes it takes. It is PROTOCOL_OUTPUT_BUFFER_IS_TOO_SMALL where
   `room` is less, and `size` is then how much is needed. Else the view shows no value, or one without an
   encoding, and `size` is 0. Where the answer is not 0, the buffer stays as it is. */
unsigned int protocol_framed_bytes_write(
    const struct protocol_framed_bytes *view, unsigned int order, unsigned char *buffer,
    protocol_size room, protocol_size *size);

#ifdef __cplusplus
}
#endif

#endif
