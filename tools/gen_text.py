"""The script that a number makes, as text: what `argo_run gen N` runs."""
import struct

DOMAINS, PAGES, ROUNDS, BODY_END = 8, 3, 200, 1024
PORT, RING_PAGE, RING_BYTES, BODY = 1, 1, 4032, 0x2000
ANY = 0x7FF4
MULTIPLIER, INCREMENT = 6364136223846793005, 1442695040888963407


def draws(number):
    """The generator's draws: the upper 31 bits of each number after this one."""
    while True:
        number = (number * MULTIPLIER + INCREMENT) % 2**64
        yield number >> 33


def store(at, data):
    return f"store {at:#x} {data.hex()}"


def address(domain):
    return struct.pack("<IHH", PORT, domain, 0)


def opening(domain):
    """The lines of a section before its rounds: a ring for all domains, and the bytes that are sent."""
    return [
        f"vcpu {domain}",
        store(0, struct.pack("<IHHI", PORT, ANY, 0, RING_BYTES)),
        store(0x10, struct.pack("<Q", RING_PAGE)),
        "op 1 0 0x10 1 0",
        store(BODY, bytes([domain]) * 64),
    ]


def a_round(domain, number, to, size):
    """The lines of a round: a send, a recv, and a sweep."""
    return [
        store(0x20, address(domain) + address(to)),
        store(0x30, struct.pack("<QII", BODY, size, 0)),
        f"op 3 0x20 0x30 1 {number}",
        f"recv {RING_PAGE} {RING_BYTES}",
        "op 4 0 0 0 0",
    ]


def script(number):
    drawn = draws(number)
    lines = ["argo 1"] + [f"domain {d} pages {PAGES}" for d in range(1, DOMAINS + 1)]
    for domain in range(1, DOMAINS + 1):
        lines += opening(domain)
        for k in range(1, ROUNDS + 1):
            to, size = 1 + next(drawn) % DOMAINS, next(drawn) % BODY_END
            lines += a_round(domain, k, to, size)
    return "\n".join(lines) + "\n"
