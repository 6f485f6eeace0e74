"""The bytes of a stored site or box, read on their own: what C, Rust and `rsmp-site` write must be of this form."""
POOL_WORDS, SITE_WORDS, TABLE_BYTES = 520, 657, 6178
SITE_BYTES = 8 * POOL_WORDS + 8 * SITE_WORDS + TABLE_BYTES
BOX_BYTES = 8 * POOL_WORDS + 2 * (8 * SITE_WORDS + TABLE_BYTES)
EDITION, STATE_EDITION = 4, 1
FORMER = {1: 13912, 2: 14136, 3: 15562}  # the bytes of a site as 0.2.0, 0.3.0 and 0.4.0 to 0.6.0 wrote it
HEAD, SUM = 16, 8
SETUP = 20


def check_sum(bytes_):
    value = 0xCBF29CE484222325
    for byte in bytes_:
        value = (value ^ byte) * 0x100000001B3 % (1 << 64)
    return value.to_bytes(8, "little")


def summed(bytes_):
    return bytes_ + check_sum(bytes_)


def fault(bytes_, length=SITE_BYTES):
    """What is wrong with the bytes of a stored site, or of a box where it has so many, or None."""
    if len(bytes_) != HEAD + length + SUM:
        return f"{len(bytes_)} bytes"
    if bytes_[:HEAD] != b"RSMPSITE" + EDITION.to_bytes(4, "little") + length.to_bytes(4, "little"):
        return f"begins with {bytes_[:HEAD]}"
    if check_sum(bytes_[:-SUM]) != bytes_[-SUM:]:
        return "the check sum"
    return None


def spoiled(good):
    """Bytes that are not to be taken."""
    def with_byte(place, value):
        return bytes(value if at == place else byte for at, byte in enumerate(good))

    yield "nothing", b""
    yield "a byte less", good[:-1]
    yield "a byte more", good + b"\0"
    for place in (0, 7, 8, 12, HEAD, HEAD + 5000, len(good) - SUM - 1, len(good) - 1):
        yield f"another byte {place}", with_byte(place, good[place] ^ 1)
    body = good[:-SUM]
    for edition in (EDITION - 1, EDITION + 1):
        yield f"edition {edition}", summed(body[:8] + edition.to_bytes(4, "little") + body[12:])
    yield "another length", summed(body[:12] + (len(body) - HEAD - 8).to_bytes(4, "little") + body[HEAD:])


def of_state(file, sites=1):
    """What is stored of the sites within a state file of `rsmp-site`."""
    edition = STATE_EDITION + sites - 1
    assert file[:12] == b"RSMPHOST" + edition.to_bytes(4, "little") and check_sum(file[:-SUM]) == file[-SUM:]
    return file[12 + sites * SETUP + 8:-SUM]


def state_of_edition(edition, file):
    """A state file of a former edition, of the same setup and time."""
    head = b"RSMPSITE" + edition.to_bytes(4, "little") + FORMER[edition].to_bytes(4, "little")
    return summed(file[:40] + summed(head + bytes(FORMER[edition])))
