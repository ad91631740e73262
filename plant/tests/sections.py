"""Splice sections (ANSI/SCTE 35) made field by field, for tests: the bytes with their CRC_32, in hexadecimal digits and in base64."""
import base64

CUEI = 0x43554549


class Fields:
    """Bits that are put one field after the other."""

    def __init__(self):
        self.value = self.count = 0

    def put(self, value, bits):
        """Adds a field of so many bits."""
        assert 0 <= value < 1 << bits, (value, bits)
        self.value, self.count = self.value << bits | value, self.count + bits
        return self

    def raw(self, data):
        """Adds bytes."""
        for it in data:
            self.put(it, 8)
        return self

    def bytes(self):
        """All of them."""
        assert self.count % 8 == 0, self.count
        return self.value.to_bytes(self.count // 8, "big")


def crc(data):
    """CRC_32 (ISO/IEC 13818-1, Annex A), by the division of polynomials."""
    rest = 0xFFFFFFFF
    for it in data:
        rest ^= it << 24
        for _ in range(8):
            rest = (rest << 1) ^ (0x104C11DB7 if rest & 0x80000000 else 0)
    return rest


def section(kind, command, descriptors=b"", is_encrypted=False, length=None):
    """9.6: a splice_info_section; `length` in place of the command's own."""
    body = Fields().put(0, 8).put(int(is_encrypted), 1).put(0, 6 + 33 + 8).put(0xFFF, 12).put(len(command) if length is None else length, 12)
    body = body.put(kind, 8).raw(command).put(len(descriptors), 16).raw(descriptors).bytes()
    head = Fields().put(0xFC, 8).put(0, 2).put(3, 2).put(len(body) + 4, 12).bytes() + body
    return head + crc(head).to_bytes(4, "big")


def splice_time(ticks):
    """9.8.1: a splice_time() of so many ticks; none if it isn't specified."""
    return (Fields().put(0, 1).put(127, 7) if ticks is None else Fields().put(1, 1).put(63, 6).put(ticks, 33)).bytes()


def splice_insert(event, is_out=True, seconds=None, ticks=None, is_cancelled=False, is_immediate=False, components=None, descriptors=b"", length=None,
                  avail=(0, 0)):
    """9.7.3: a splice_insert. `components`: their tags, in place of the whole program. `avail`: avail_num and avails_expected."""
    it = Fields().put(event, 32).put(int(is_cancelled), 1).put(127, 7)
    if not is_cancelled:
        it.put(int(is_out), 1).put(int(components is None), 1).put(int(seconds is not None), 1).put(int(is_immediate), 1).put(15, 4)
        if components is None:
            it.raw(b"" if is_immediate else splice_time(ticks))
        else:
            it.put(len(components), 8)
            for tag in components:
                it.put(tag, 8).raw(b"" if is_immediate else splice_time(ticks))
        if seconds is not None:
            it.put(1, 1).put(63, 6).put(round(seconds * 90_000), 33)
        it.put(0, 16).put(avail[0], 8).put(avail[1], 8)
    return section(5, it.bytes(), descriptors, length=length)


def segmentation(event, kind, seconds=None, upid_type=0, upid=b"", is_cancelled=False, components=None, is_restricted=False, part=(1, 1)):
    """10.3.3: a segmentation_descriptor of the segmentation type `kind`. `part`: segment_num and segments_expected."""
    it = Fields().put(CUEI, 32).put(event, 32).put(int(is_cancelled), 1).put(127, 7)
    if not is_cancelled:
        it.put(int(components is None), 1).put(int(seconds is not None), 1).put(int(not is_restricted), 1).put(0b10111 if is_restricted else 31, 5)
        if components is not None:
            it.put(len(components), 8)
            for tag in components:
                it.put(tag, 8).put(127, 7).put(90_000, 33)
        if seconds is not None:
            it.put(round(seconds * 90_000), 40)
        it.put(upid_type, 8).put(len(upid), 8).raw(upid).put(kind, 8).put(part[0], 8).put(part[1], 8)
    return bytes([2, len(it.bytes())]) + it.bytes()


def time_signal(*descriptors, ticks=92_160_000, length=None):
    """9.7.4: a time_signal with these descriptors."""
    return section(6, splice_time(ticks), b"".join(descriptors), length=length)


def digits(data):
    """As a date range has it (RFC 8216, 4.3.2.7.1)."""
    return f"0x{data.hex().upper()}"


def letters(data):
    """In base64."""
    return base64.b64encode(data).decode()
