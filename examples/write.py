"""The same message in Python, by the module that the generator makes."""
from telemetry import Message

message = Message.Hello(name="porch", version=bytes([1, 0, 0]), mail=None)
print(message.to_bytes().hex())
