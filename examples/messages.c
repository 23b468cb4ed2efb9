/* Walks over frames by the calls of crates/protocol. The first is a message, the second is broken, the third is cut
   short. */
#include "protocol.h"

int printf(const char *format, ...);

static const unsigned char received[] = {
    0x16, 0,    5,   0x94, 1,   0,   0,   13, 0,   0,   0,   'n', 'o', ' ', 's', 'u', 'c', 'h', ' ', 't', 'h', 'i', 'n', 'g',
    0x01, 0,    99,
    0x0e, 0,    5,
};

int main(void) {
    struct protocol_walk walk = {{received, sizeof received}};
    while (walk.left.length > 0) {
        struct protocol_framed_message frame;
        struct protocol_framed_bytes broken;
        unsigned int answer = protocol_framed_message_next(&walk, PROTOCOL_LITTLE_ENDIAN, &frame);
        if (answer == PROTOCOL_OK) {
            struct protocol_bytes text = frame.message.failure.text;
            if (frame.message.tag == PROTOCOL_MESSAGE_FAILURE) {
                printf("tag %u: %.*s\n", frame.message.tag, (int)text.length, (const char *)text.at);
            }
        } else if (PROTOCOL_ENDS_TOO_SOON(answer)) {
            printf("%lu bytes wait for more\n", walk.left.length);
            return 0;
        } else if (protocol_framed_bytes_next(&walk, PROTOCOL_LITTLE_ENDIAN, &broken) == PROTOCOL_OK) {
            printf("a broken message of %lu bytes\n", 2 + broken.bytes.length);
        } else {
            return 1;
        }
    }
    return 0;
}
