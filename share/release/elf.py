"""Which libraries a program of Linux wants, read from its dynamic section."""

import re
import struct

SECTION = "<IIQQQQIIQQ"
DYNAMIC, NEEDED = 6, 1


def libraries(data: bytes) -> set[str]:
    """The names of the libraries."""
    if data[:6] != b"\x7fELF\x02\x01":
        return {"no program of Linux on 64 bits"}
    (start,) = struct.unpack_from("<Q", data, 0x28)
    size, count = struct.unpack_from("<HH", data, 0x3A)
    sections = [struct.unpack_from(SECTION, data, start + place * size) for place in range(count)]
    found = set()
    for section in sections:
        if section[1] == DYNAMIC:
            names = sections[section[6]][4]
            for at in range(section[4], section[4] + section[5], 16):
                what, where = struct.unpack_from("<qQ", data, at)
                if what == NEEDED:
                    found.add(data[names + where : data.index(b"\0", names + where)].decode())
    return found


def newest_glibc(data: bytes) -> str:
    """The newest version of the library of C that the program names."""
    found = [tuple(map(int, one.split(b"."))) for one in re.findall(rb"GLIBC_(2\.[0-9]+)\0", data)]
    return ".".join(map(str, max(found, default=(2, 2))))
