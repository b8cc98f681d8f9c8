"""What each line of argo_asm writes: the structures of Xen's public header argo.h, and the calls."""
import re

ANY = 0x7FF4
STORE_MOST = 64
NAMES = {
    1: "EPERM", 2: "ENOENT", 3: "ESRCH", 11: "EAGAIN", 13: "EACCES", 14: "EFAULT", 16: "EBUSY", 17: "EEXIST",
    19: "ENODEV", 22: "EINVAL", 28: "ENOSPC", 90: "EMSGSIZE", 95: "EOPNOTSUPP", 111: "ECONNREFUSED",
}
NUMBERS = {name: number for number, name in NAMES.items()}

# The fields of each structure in their order: name, bytes, and what stands there where a line does not say.
FIELDS = {
    "addr": [("aport", 4, None), ("domain_id", 2, None), ("pad", 2, 0)],
    "send_addr": [("src_aport", 4, None), ("src_domain_id", 2, None), ("src_pad", 2, 0),
                  ("dst_aport", 4, None), ("dst_domain_id", 2, None), ("dst_pad", 2, 0)],
    "iov": [("iov_hnd", 8, None), ("iov_len", 4, None), ("pad", 4, 0)],
    "register_ring": [("aport", 4, None), ("partner_id", 2, None), ("pad", 2, 0), ("len", 4, None)],
    "unregister_ring": [("aport", 4, None), ("partner_id", 2, None), ("pad", 2, 0)],
    "ring_head": [("rx_ptr", 4, 0), ("tx_ptr", 4, 0), ("reserved", 56, 0)],
    "ring_data": [("nent", 4, None), ("pad", 4, 0)],
    "ring_data_ent": [("aport", 4, None), ("domain_id", 2, None), ("addr_pad", 2, 0), ("flags", 2, 0), ("pad", 2, 0),
                      ("space_required", 4, None), ("max_message_size", 4, 0)],
    "message_header": [("len", 4, None), ("aport", 4, None), ("domain_id", 2, None), ("pad", 2, 0),
                       ("message_type", 4, None)],
}


class Wrong(Exception):
    """A line of the source that means nothing."""


def value_of(text, names):
    """A sum or difference of numbers and names."""
    total, sign = 0, 1
    for word in re.findall(r"[^+-]+|[+-]", text):
        if word in "+-":
            sign = 1 if word == "+" else -1
        elif word in names:
            total += sign * names[word]
        elif re.fullmatch(r"0x[0-9a-fA-F]+|0|[1-9][0-9]*", word):
            total += sign * int(word, 0)
        else:
            raise Wrong(f"'{word}' is no number and no name")
    return total


def numbers_of(text, names):
    """A list of numbers, such as 1,2 or 1..3."""
    found = []
    for part in text.split(","):
        low, dots, high = part.partition("..")
        first = value_of(low, names)
        found += range(first, value_of(high, names) + 1) if dots else [first]
    return found


def le(value, size):
    if not 0 <= value < 256 ** size:
        raise Wrong(f"{value} does not fit into {size} bytes")
    return value.to_bytes(size, "little")


def hexed(number):
    return f"{number:#x}" if number else "0"


def stores(at, data):
    """The store lines that write these bytes, 64 a line."""
    return [f"store {hexed(at + i)} {data[i:i + STORE_MOST].hex()}" for i in range(0, len(data), STORE_MOST)]


class Words:
    """The words NAME=VALUE of a line."""

    def __init__(self, words, names):
        self.given, self.names = {}, names
        for word in words:
            name, found, text = word.partition("=")
            if not found or name in self.given:
                raise Wrong(f"'{word}' should be NAME=VALUE, each name once")
            self.given[name] = text

    def text(self, name, default=None):
        if name not in self.given and default is None:
            raise Wrong(f"{name}= is missing")
        return self.given.pop(name, default)

    def number(self, name, default=None):
        return value_of(self.text(name, None if default is None else str(default)), self.names)

    def end(self):
        if self.given:
            raise Wrong(f"{sorted(self.given)[0]}= means nothing here")


def structure(kind, words):
    """One structure, each field by its name in the header."""
    at, data = words.number("at"), b""
    for name, size, default in FIELDS[kind]:
        data += le(words.number(name, default), size)
    words.end()
    return stores(at, data)


def page_numbers(words):
    return numbers_of(words.text("pages"), words.names)


def page_list(words):
    at, pages = words.number("at"), page_numbers(words)
    words.end()
    return stores(at, b"".join(le(page, 8) for page in pages))


def body_of(text, names):
    """The bytes of "TEXT", of hex:DIGITS, or of N*BYTE."""
    if text.startswith('"'):
        return text[1:-1].encode()
    if re.fullmatch(r"hex:([0-9a-fA-F]{2})*", text):
        return bytes.fromhex(text[4:])
    count, star, byte = text.partition("*")
    if star:
        return le(value_of(byte, names), 1) * value_of(count, names)
    raise Wrong(f"{text} is no \"TEXT\", hex:DIGITS or N*BYTE")


def put_bytes(words):
    at, data = words.number("at"), body_of(words.text("body"), words.names)
    words.end()
    return stores(at, data)


def ring_name(words):
    """The port, the partner and the pad, with which both structures of a ring begin."""
    return le(words.number("port"), 4) + le(words.number("partner"), 2) + le(words.number("pad", 0), 2)


def ring(words):
    """register_ring: the structure at AT, the page list 16 bytes behind it, and the call."""
    at, flags, pages = words.number("at"), words.number("flags", 0), page_numbers(words)
    head = ring_name(words) + le(words.number("len"), 4)
    words.end()
    listed = b"".join(le(page, 8) for page in pages)
    return stores(at, head) + stores(at + 16, listed) + [f"op 1 {hexed(at)} {hexed(at + 16)} {len(pages)} {flags}"]


def unring(words):
    """unregister_ring: the structure at AT, and the call."""
    at, head = words.number("at"), ring_name(words)
    words.end()
    return stores(at, head) + [f"op 2 {hexed(at)} 0 0 0"]


def pair(text, names):
    """A domain and a port, as in 1:5."""
    domain, colon, port = text.partition(":")
    if not colon:
        raise Wrong(f"{text} should be DOMAIN:PORT")
    return value_of(domain, names), value_of(port, names)


def address(domain, port):
    return le(port, 4) + le(domain, 2) + le(0, 2)


def send(words, caller):
    """sendv with one buffer: the two addresses at AT, the iov 16 bytes behind them, the body, and the call."""
    at, kind = words.number("at", 0x20), words.number("type", 0)
    source = words.text("from")
    source = pair(source, words.names) if ":" in source else (caller, value_of(source, words.names))
    target, data = pair(words.text("to"), words.names), words.number("data", at + 32)
    if "size" in words.given:
        body, size = b"", words.number("size")
    else:
        body = body_of(words.text("body"), words.names)
        size = len(body)
    words.end()
    head = address(*source) + address(*target)
    iov = le(data, 8) + le(size, 4) + le(0, 4)
    return stores(at, head) + stores(at + 16, iov) + stores(data, body) + [f"op 3 {hexed(at)} {hexed(at + 16)} 1 {kind}"]


def notify(words):
    """notify: alone it sweeps; with ask=DOMAIN:PORT:SIZE,.. it also asks, by entries 8 bytes behind AT."""
    if not words.given:
        return ["op 4 0 0 0 0"]
    at, asks, data = words.number("at"), words.text("ask").split(","), b""
    for ask in asks:
        target, colon, size = ask.rpartition(":")
        data += address(*pair(target, words.names)) + le(0, 4) + le(value_of(size, words.names), 4) + le(0, 4)
    pad = words.number("pad", 0)
    words.end()
    return stores(at, le(len(asks), 4) + le(pad, 4)) + stores(at + 8, data) + [f"op 4 {hexed(at)} 0 0 0"]


CALLS = {"ring": ring, "unring": unring, "notify": notify, "page_list": page_list, "bytes": put_bytes}


def lines_of(verb, words, names, caller):
    """The lines of a script that a line of the source writes."""
    found = Words(words, names)
    if verb in FIELDS:
        return structure(verb, found)
    if verb == "send":
        return send(found, caller)
    return CALLS[verb](found)
