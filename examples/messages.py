"""The same walk in Python, by the module that the generator makes."""
from protocol import FramedBytes, FramedMessage, Message, Refused

RECEIVED = b"\x16\0\x05\x94\x01\0\0\x0d\0\0\0no such thing\x01\0\x63\x0e\0\x05"

left = RECEIVED
while left:
    try:
        frame, size = FramedMessage.read(left)
        if isinstance(frame.message, Message.Failure):
            print("tag 5:", frame.message.text)
    except Refused as refused:
        if refused.ends_too_soon:
            print(len(left), "bytes wait for more")
            break
        size = FramedBytes.check(left)
        print("a broken message of", size, "bytes")
    left = left[size:]
