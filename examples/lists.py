"""The same list in Python, by the module that the generator makes."""
from telemetry import Message, Reading

measured = [Reading(second=0, value=21, is_exact=True), Reading(second=60, value=-10, is_exact=False)]
message = Message.Measurements(sensor=7, readings=measured)
data = message.to_bytes()

read, size = Message.read(data)
print(len(read.readings), "readings in", size, "bytes")
for reading in read.readings:
    print(f"second {reading.second}: {reading.value}")
