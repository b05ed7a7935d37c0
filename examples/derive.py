#!/usr/bin/env python3
"""Prints the account of an envelope file, and each label that it opens with its key, as open_envelope.c does, with ctypes alone.

    python3 derive.py ENVELOPE [LIBRARY]

LIBRARY is the path of libyendlowa-desk.so.1; without it the system's loader looks for the library.
Exit status: 0 an answer, 1 refused, 2 a wrong call or a file that could not be read or written.
"""
import ctypes
import sys
from ctypes import c_char, c_char_p, c_size_t, c_uint8, c_uint16

ENVELOPE_ROOM = 2742  # YENDLOWA_ENVELOPE_ROOM: of a longer file these bytes decide


# The structs of yendlowa_refusals.h and yendlowa_desk.h.
class Text(ctypes.Structure):
    _fields_ = [("text", c_char * 80)]


class LabelsRead(ctypes.Structure):
    _fields_ = [("refusal", c_uint8), ("zeros", c_uint8 * 5), ("account", c_uint16), ("labels", c_size_t),
                ("names", (c_uint8 * 8) * 64)]


class Derived(ctypes.Structure):
    _fields_ = [("refusal", c_uint8), ("key", c_uint8 * 32), ("applications", c_uint8)]


def load(path):
    """The desk's library, with the types of the functions that are called here."""
    library = ctypes.CDLL(path)
    library.yendlowa_refusal_text.argtypes = [c_uint8]
    library.yendlowa_refusal_text.restype = Text
    library.yendlowa_labels.argtypes = [c_char_p, c_size_t]
    library.yendlowa_labels.restype = LabelsRead
    library.yendlowa_envelope_records.argtypes = [c_char_p, c_size_t]
    library.yendlowa_envelope_records.restype = c_size_t
    library.yendlowa_derive.argtypes = [c_char_p, c_size_t, c_char_p, c_size_t]
    library.yendlowa_derive.restype = Derived
    return library


def show(library, envelope):
    """Prints what an envelope opens, or its refusal, and gives the exit status."""
    read = library.yendlowa_labels(envelope, len(envelope))
    if read.refusal != 0:
        records = library.yendlowa_envelope_records(envelope, len(envelope))
        words = library.yendlowa_refusal_text(read.refusal).text.decode("ascii")
        print(f"REFUSED {read.refusal}")
        print(f"derive.py: after {records} records: {words}", file=sys.stderr)
        return 1
    print(f"account {read.account}")
    for k in range(read.labels):
        name = bytes(read.names[k])
        derived = library.yendlowa_derive(envelope, len(envelope), name, len(name))
        print(name.decode("ascii"), bytes(derived.key).hex())
    return 0


def main(arguments):
    if len(arguments) not in (1, 2):
        print("derive.py: call it as: derive.py ENVELOPE [LIBRARY]", file=sys.stderr)
        return 2
    if sys.stdout is None:
        print("derive.py: standard output is closed", file=sys.stderr)
        return 2
    try:
        library = load(arguments[1] if len(arguments) == 2 else "libyendlowa-desk.so.1")
        with open(arguments[0], "rb") as file:
            envelope = file.read(ENVELOPE_ROOM)
        status = show(library, envelope)
        sys.stdout.flush()
        return status
    except (OSError, AttributeError) as error:  # a library without the functions is an AttributeError
        print(f"derive.py: {error}", file=sys.stderr)
        return 2


if __name__ == "__main__":
    sys.exit(main(sys.argv[1:]))
