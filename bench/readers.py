"""How fast stomp.py reads letters as an outbox sends them: a text of such frames is parted at its NULs, and each is parsed, as its
connection does with what a socket gives. Prints octets a second of processor time.
"""
import time

import stomp
from stomp.utils import parse_frame

LETTER = (b"SEND\ndestination:/queue/warehouse\nkind:message\nfrom:order/o1\nto:stock/bolt\nnumber:1\ncontent-length:22\n\n"
          b'{"n":3,"op":"request"}\0')


def main():
    text = LETTER * 100_000
    start = time.process_time()
    count = 0
    for at in range(0, len(text), 126 * 32):
        for frame in text[at:at + 126 * 32].split(b"\0")[:-1]:
            count += parse_frame(frame).cmd == "SEND"
    seconds = time.process_time() - start
    assert count == 100_000, count
    print(f"stomp.py {'.'.join(map(str, stomp.__version__))}: {len(text) / seconds:,.0f} octets a second")


main()
