"""Words in a picture in the form PNG: a picture says in itself what it was made of."""
import struct
import zlib

from lib.given import Wrong

SIGNATURE = b'\x89PNG\r\n\x1a\n'

KEY = b'Source'
"""The keyword of the words."""


def chunks(picture):
    """The chunks of a picture: of each its kind and what it has."""
    if not picture.startswith(SIGNATURE):
        raise Wrong('no picture in the form PNG')
    place = len(SIGNATURE)
    while place < len(picture):
        length, kind = struct.unpack_from('>I4s', picture, place)
        yield kind, picture[place + 8:place + 8 + length]
        place += length + 12


def chunk(kind, content):
    return struct.pack('>I', len(content)) + kind + content + struct.pack('>I', zlib.crc32(kind + content))


def with_source(picture, words):
    """A picture with these words in it, behind its header."""
    header, *others = chunks(picture)
    said = b'tEXt', KEY + b'\0' + words.encode('latin-1')
    return SIGNATURE + b''.join(chunk(*one) for one in [header, said, *others])


def source_of(picture):
    """The words in a picture; '' where there are none."""
    found = (content.partition(b'\0') for kind, content in chunks(picture) if kind == b'tEXt')
    return next((words.decode('latin-1') for key, _, words in found if key == KEY), '')
