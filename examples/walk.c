/* Walks over messages by the calls of crates/telemetry: two whole ones, and one that is cut short. */
#include "telemetry.h"

int printf(const char *format, ...);

static const unsigned char received[] = {
    2, 5, 0, 0, 0, 'p', 'o', 'r', 'c', 'h', 1, 4, 2, 0, 3, 7, 0, 60, 0, 0, 0, 0xf6, 0xff, 0xff, 0xff, 1, 4, 9, 0,
};

int main(void) {
    struct telemetry_walk walk = {{received, sizeof received}};
    while (walk.left.length > 0) {
        struct telemetry_message message;
        unsigned int answer = telemetry_message_next(&walk, TELEMETRY_LITTLE_ENDIAN, &message);
        if (answer != TELEMETRY_OK) {
            printf("%lu bytes left, %s\n", walk.left.length, TELEMETRY_ENDS_TOO_SOON(answer) ? "cut short" : "broken");
            return 0;
        }
        if (message.tag == TELEMETRY_MESSAGE_HELLO) {
            printf("hello %.*s\n", (int)message.hello.name.length, (const char *)message.hello.name.at);
        } else if (message.tag == TELEMETRY_MESSAGE_MEASURED) {
            printf("sensor %u: %d\n", message.measured.sensor, message.measured.reading.value);
        }
    }
    return 0;
}
