"""Octets of frames that are changed at random."""
WORDS = [b"\n", b"\r\n", b"\r", b"\0", b":", b"\\", b"\\c", b"\\n", b"\\t", b"\xff", b"\xc3\xbc", b"\xe2\x82", b"0", b"2", b"1.2", b"auto",
         b"client", b"18446744073709551616", b":x\n", b"x\n", b"id:0\n", b"ack:1\n", b"receipt:r\n", b"transaction:t\n",
         b"destination:/queue/a\n", b"destination:/topic/a\n", b"accept-version:1.1\n", b"content-length:0\n", b"content-length:3\n",
         b"content-length:1048577\n", b"content-length:99999999\n", b"SEND\n", b"MESSAGE\n", b"CONNECT\n",
         b"BEGIN\ntransaction:t\n\n\0", b"ABORT\ntransaction:t\n\n\0", b"DISCONNECT\n\n\0", b"h:" + b"x" * 1022 + b"\n",
         b"h:" + b"x" * 1023 + b"\n", b"h:x\n" * 33, b"receipt:" + b"r" * 129 + b"\n"]
ODD = (b"MESSAGE\nmessage-id:1\n\n\0", b"RECEIPT\nreceipt-id:r\nreceipt:r\n\n\0", b"UNSUBSCRIBE\nid:9\n\n\0", b"\n" * 99,
       b"BEGIN\ntransaction:" + b"t" * 128 + b"\n\n\0", b"BEGIN\ntransaction:" + b"t" * 129 + b"\n\n\0",
       b"SEND\ndestination:/queue/odd\n" + b"h:x\n" * 29 + b"\n\0", b"SEND\ndestination:/queue/" + b"q" * 65 + b"\n\n\0",
       b"".join(b"BEGIN\ntransaction:%d\n\n\0" % number for number in range(17)),
       b"".join(b"SUBSCRIBE\nid:s%d\ndestination:/queue/odd\nack:client\n\n\0" % number for number in range(64)),
       b"BEGIN\ntransaction:u\n\n\0" + b"SEND\ndestination:/queue/odd\ntransaction:u\n\n\0" * 257 + b"COMMIT\ntransaction:u\n\n\0",
       b"BEGIN\ntransaction:v\n\n\0" + b"SEND\ndestination:/queue/odd\ntransaction:v\n\n\0" * 256 + b"COMMIT\ntransaction:v\n\n\0")
MORE_LINES = (b"\n", b":", b"\0", b"\\")


def somewhere(dice, octets):
    """A place, and one a short way after it."""
    at = dice.randrange(len(octets) + 1)
    return at, min(len(octets), at + int(dice.expovariate(0.15)))


def changed(dice, octets):
    """The octets with one change."""
    how, (at, end) = dice.randrange(9), somewhere(dice, octets)
    if how == 0 and at < len(octets):
        return octets[:at] + bytes([octets[at] ^ 1 << dice.randrange(8)]) + octets[at + 1:]
    if how == 1:
        return octets[:at] + octets[end:]
    if how == 2:
        return octets[:end] + octets[at:]
    if how == 3:
        at = octets.rfind(b"\n", 0, at) + 1 if dice.random() < 0.6 else at
        return octets[:at] + dice.choice(WORDS) + octets[at:]
    if how == 4:
        return octets[:at] + dice.choice(WORDS) + octets[end:]
    if how == 5:
        return octets[:at] + dice.randbytes(dice.randrange(1, 9)) + octets[end:]
    if how == 6:
        other, other_end = somewhere(dice, octets)
        return octets[:at] + octets[other:other_end] + octets[at:]
    if how == 7:
        lines = octets.split(b"\n")
        one, other = dice.randrange(len(lines)), dice.randrange(len(lines))
        lines[one], lines[other] = (lines[other], lines[one]) if dice.random() < 0.5 else (lines[other], lines[other])
        return b"\n".join(lines)
    if how == 8 and dice.random() < 0.3:
        return octets[:at]
    mark = dice.choice(MORE_LINES)
    found = octets.find(mark, at)
    return octets if found < 0 else octets[:found] + octets[found + len(mark):]


def mutated(dice, frames, chance=0.5):
    """The frames' octets: so likely changed, or with frames doubled, missing or in another order, else as they are."""
    frames = list(frames)
    if dice.random() > chance:
        return b"".join(frames)
    for _ in range(dice.choice((0, 0, 0, 1, 2))):
        one, other = dice.randrange(len(frames)), dice.randrange(len(frames))
        how = dice.randrange(4)
        if how == 3:
            frames.insert(one, dice.choice(ODD))
        elif how == 0:
            frames.insert(one, frames[other])
        elif how == 1 and len(frames) > 1:
            del frames[one]
        else:
            frames[one % len(frames)], frames[other % len(frames)] = frames[other % len(frames)], frames[one % len(frames)]
    for _ in range(dice.choice((0, 1, 1, 1, 2, 4))):
        at = dice.randrange(len(frames))
        frames[at] = changed(dice, frames[at])
    return b"".join(frames)


def in_pieces(dice, one, octets):
    """Sends octets, now and then in pieces. The other side may have closed."""
    try:
        while octets:
            size = len(octets) if dice.random() < 0.7 else dice.randrange(1, len(octets) + 1)
            one.sendall(octets[:size])
            octets = octets[size:]
    except (BrokenPipeError, ConnectionResetError):
        pass
