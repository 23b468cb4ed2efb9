/* Writes a message with a list, and walks over the list where it was written. */
#include "telemetry.h"

int printf(const char *format, ...);

int main(void) {
    static const struct telemetry_reading measured[] = {{0, 21, 1}, {60, -10, 0}};
    struct telemetry_message message = {0};
    struct telemetry_reading reading;
    struct telemetry_list list;
    unsigned char items[64], buffer[64];
    telemetry_size size, used = 0;
    for (int at = 0; at < 2; at++) {
        telemetry_reading_write(&measured[at], TELEMETRY_LITTLE_ENDIAN, items + used, sizeof items - used, &size);
        used += size;
    }
    message.tag = TELEMETRY_MESSAGE_MEASUREMENTS;
    message.measurements.sensor = 7;
    message.measurements.readings.items.left.at = items;
    message.measurements.readings.items.left.length = used;
    message.measurements.readings.count = 2;
    message.measurements.readings.order = TELEMETRY_LITTLE_ENDIAN;
    telemetry_message_write(&message, TELEMETRY_LITTLE_ENDIAN, buffer, sizeof buffer, &size);

    if (telemetry_message_read(buffer, size, TELEMETRY_LITTLE_ENDIAN, &message, &size) != TELEMETRY_OK) {
        return 1;
    }
    list = message.measurements.readings;
    printf("%lu readings in %lu bytes\n", list.count, size);
    while (list.count-- > 0 && telemetry_reading_next(&list.items, list.order, &reading) == TELEMETRY_OK) {
        printf("second %u: %d\n", reading.second, reading.value);
    }
    return 0;
}
