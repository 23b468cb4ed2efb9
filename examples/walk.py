"""The same walk in Python, by the module that the generator makes."""
from telemetry import Message, Refused

RECEIVED = b"\x02\x05\0\0\0porch\x01\x04\x02\0\x03\x07\0\x3c\0\0\0\xf6\xff\xff\xff\x01\x04\x09\0"

try:
    for message in Message.walk(RECEIVED):
        match message:
            case Message.Hello(name=name):
                print("hello", name)
            case Message.Measured(sensor=sensor, reading=reading):
                print(f"sensor {sensor}: {reading.value}")
except Refused as refused:
    print(len(RECEIVED) - refused.at, "bytes left,", "cut short" if refused.ends_too_soon else "broken")
