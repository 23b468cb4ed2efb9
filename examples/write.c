/* Writes a message by the calls of crates/telemetry, and prints its bytes. */
#include "telemetry.h"

int printf(const char *format, ...);

int main(void) {
    struct telemetry_message message = {0};
    unsigned char buffer[64];
    telemetry_size size;
    message.tag = TELEMETRY_MESSAGE_HELLO;
    message.hello.name.at = (const unsigned char *)"porch";
    message.hello.name.length = 5;
    message.hello.version[0] = 1;
    if (telemetry_message_write(&message, TELEMETRY_LITTLE_ENDIAN, buffer, sizeof buffer, &size) == TELEMETRY_OK) {
        for (telemetry_size at = 0; at < size; at++) {
            printf("%02x", buffer[at]);
        }
        printf("\n");
    }
    return 0;
}
