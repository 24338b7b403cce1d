"""Log records, requests and firmware images as bytes, by document 01 ("the page").

A log record has 544 bytes: kind, module and host, revision (2), function (2), request length (2), request padded with zeros
to 536. The second byte names the module in its high four bits and the host in its low four, which are zero where no host calls.
This file only writes and reads bytes; what the modules behind the calls answer is no matter of it.
"""

RECORD = 544
REQUEST_AT = 8
REQUEST_MOST = 536
AREA = 16384
IMAGE_RECORD = 128
IMAGE_MOST = 128
IMAGE_PART = 112
PASSPHRASE = 32
MODULES = 2
HOSTS = 4

CALL, TICK, POWER, READING = 1, 2, 3, 4
READING_AT, READING_END = 8, 13     # its five bytes: spare, media (2), controller (2)
SPARE_MOST = 100

GET_HEALTH = 1
MASK, GET_THRESHOLD, INFO, START, SEND, FINISH, QUERY, SET_THRESHOLD = 0, 2, 12, 13, 14, 15, 16, 17
SECURITY, SET_PASSPHRASE, DISABLE, UNLOCK, FREEZE = 19, 20, 21, 22, 23

NAMES = {
    MASK: "Function mask", GET_HEALTH: "Get Health", GET_THRESHOLD: "Get Threshold", INFO: "Get FW Info", START: "Start", SEND: "Send",
    FINISH: "Finish", QUERY: "Query Finish", SET_THRESHOLD: "Set Threshold", SECURITY: "Get Security State",
    SET_PASSPHRASE: "Set Passphrase", DISABLE: "Disable", UNLOCK: "Unlock", FREEZE: "Freeze",
}

# Request bytes. Send has 12 and its piece; function 0 reads past its request.
REQUEST_BYTES = {
    GET_HEALTH: 0, GET_THRESHOLD: 0, INFO: 0, START: 0, FINISH: 8, QUERY: 4, SET_THRESHOLD: 7, SECURITY: 0,
    SET_PASSPHRASE: 2 * PASSPHRASE, DISABLE: PASSPHRASE, UNLOCK: PASSPHRASE, FREEZE: 0,
}
SEND_HEAD = 12


def le(number, width):
    return number.to_bytes(width, "little")


def number_at(data, at, width):
    return int.from_bytes(data[at:at + width], "little")


# ---- Records ----

def call(host, function, request=b"", revision=2, length=None, module=0):
    """A call's record. A request length that is not the request's own makes a bad record, or a shorter request."""
    head = bytes([CALL, module << 4 | host]) + le(revision, 2) + le(function, 2) + le(len(request) if length is None else length, 2)
    return (head + request).ljust(RECORD, b"\0")


def event(kind, module=0):
    return bytes([kind, module << 4]).ljust(RECORD, b"\0")


def reading(spare, media, controller, module=0):
    head = event(READING, module)[:READING_AT]
    return head + bytes([spare]) + le(media, 2) + le(controller, 2) + bytes(RECORD - READING_END)


def module_of(record):
    return record[1] >> 4


def host_of(record):
    return record[1] & 15


def poke(record, at, byte):
    return record[:at] + bytes([byte]) + record[at + 1:]


def why_bad(record):
    """Why the page calls this record bad, or None."""
    kind, module, host, length = record[0], module_of(record), host_of(record), number_at(record, 6, 2)
    if kind not in (CALL, TICK, POWER, READING):
        return f"kind {kind} is not 1 (call), 2 (tick), 3 (power) or 4 (reading)"
    if kind == TICK:
        return own_fault(record, "tick", 1, ())
    if module >= MODULES:
        return f"module {module} is not 0 or 1"
    if kind != CALL:
        return event_fault(record)
    if not 1 <= host <= HOSTS:
        return f"host {host} is not 1 to {HOSTS}"
    if length > REQUEST_MOST:
        return f"request length {length} is over {REQUEST_MOST}"
    for at in range(REQUEST_AT + length, RECORD):
        if record[at]:
            return f"byte {at}, after the request, is {record[at]} and not zero"
    return None


def own_fault(record, what, first, own):
    """Of the bytes from the first on all are zero, but for the record's own."""
    for at in range(first, RECORD):
        if record[at] and at not in own:
            return f"byte {at} of a {what} is {record[at]} and not zero"
    return None


def event_fault(record):
    """A power cycle or a reading, of a module that there is."""
    what, own = ("power cycle", ()) if record[0] == POWER else ("reading", range(READING_AT, READING_END))
    if host_of(record):
        return f"a {what} has host {host_of(record)} and not zero"
    fault = own_fault(record, what, 2, own)
    if fault is None and record[0] == READING and record[READING_AT] > SPARE_MOST:
        return f"spare {record[READING_AT]} is over {SPARE_MOST}"
    return fault


# ---- Requests ----

def send(context, offset, piece, length=None):
    return le(context, 4) + le(offset, 4) + le(len(piece) if length is None else length, 4) + piece


def finish(context, flag=0, reserved=b"\0\0\0"):
    return bytes([flag]) + reserved.ljust(3, b"\0") + le(context, 4)


def query(context):
    return le(context, 4)


def set_threshold(enable, spare, media, controller):
    return le(enable, 2) + bytes([spare]) + le(media, 2) + le(controller, 2)


def passphrase(text):
    return text.ljust(PASSPHRASE, b"\0")


def set_passphrase(current, new):
    return passphrase(current) + passphrase(new)


# ---- Images ----

FAULTS = ("size", "number", "count", "zero-version", "version", "sum")
REASONS = ("size", "number", "count", "version", "sum")     # what the replay's last line calls them


def usual_payload(i, version):
    """Differs from version to version and from record to record, so a mixture of two images shows."""
    return bytes((7 * j + 31 * i + 113 * version + i * j) & 255 for j in range(112))


def word_sum(body):
    return sum(number_at(body, at, 4) for at in range(0, 124, 4)) & 0xFFFFFFFF


def image_record(i, count, version, payload):
    body = le(i, 2) + le(count, 2) + le(version, 8) + payload.ljust(IMAGE_PART, b"\0")
    return body + le(word_sum(body), 4)


def image(records, version, payload=None, fault=None, at=None, size=None, second=None, second_at=None):
    """An image of the house form, or one with a fault, or with two. Sums are right but in a record with fault 'sum'."""
    rows = []
    for i in range(records):
        number, count, own = i, records, version
        faults = {name for name, place in ((fault, at), (second, second_at))
                  if i == (place or 0) or name == "zero-version" and place is None}
        if "number" in faults:
            number = i + 1
        if "count" in faults:
            count = records + 1
        if "version" in faults:
            own = version ^ 1 << (7 + 29 * i) % 64      # one bit turned: in the low half, then in the high, ..
        if "zero-version" in faults:
            own = 0
        row = image_record(number, count, own, usual_payload(i, version) if payload is None else payload)
        if "sum" in faults:
            row = row[:124] + le((number_at(row, 124, 4) + 1) & 0xFFFFFFFF, 4)
        rows.append(row)
    whole = b"".join(rows)
    if fault == "size":
        size = len(whole) - 1 if size is None else size
        whole = whole[:size].ljust(size, b"\0")
    return whole


def made_image(version, payload):
    """The image that is made from a payload: parts of 112 bytes, the last padded, and one record where there is no byte."""
    parts = [payload[at:at + IMAGE_PART] for at in range(0, len(payload), IMAGE_PART)] or [b""]
    return b"".join(image_record(i, len(parts), version, part) for i, part in enumerate(parts))


def pieces(data, sizes):
    """Cuts data into (offset, piece) by the sizes, which begin again when they are used up."""
    at, turn = 0, 0
    while at < len(data):
        size = sizes[turn % len(sizes)]
        yield at, data[at:at + size]
        at, turn = at + size, turn + 1
