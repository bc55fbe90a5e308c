#!/usr/bin/env python3
"""Makes a bundle from files, each one stream: tools/make_bundle.py FILE.. > bundle

Ends with 1, a line on standard error and nothing written where a file can't be read or the bundle would pass 60,000 bytes or 256
streams, more than the replay takes; with 2 on wrong use.

A bundle is sections of whole length (4 bytes), kind (2, always 1), then one stream; a stream is records of whole length
(2 bytes), kind (2), instrument (4), timestamp (8), then the body. All little-endian; a length counts its own head.
"""
import struct
import sys

MOST_BYTES = 60000
MOST_SECTIONS = 256


def record(time, instrument, kind=1, body=b"", length=None):
    """A record; another length than its own makes a damaged one."""
    whole = 16 + len(body) if length is None else length
    return struct.pack("<HHIQ", whole, kind, instrument, time) + body


def section(stream, kind=1, length=None):
    """A section that holds a stream; another kind or length makes a bad one."""
    whole = 6 + len(stream) if length is None else length
    return struct.pack("<IH", whole, kind) + stream


def bundle(streams):
    return b"".join(section(stream) for stream in streams)


def stop(status, reason):
    print(f"make_bundle: {reason}", file=sys.stderr)
    sys.exit(status)


def write(data):
    try:
        with open(1, "wb", closefd=False) as out:
            out.write(data)
    except OSError as error:
        stop(1, f"standard output: {error.strerror}")


def main():
    names = sys.argv[1:]
    if "--help" in names or "-h" in names:
        write(__doc__.encode())
        return
    if not names:
        stop(2, "no FILE; tools/make_bundle.py --help tells more")
    if len(names) > MOST_SECTIONS:
        stop(1, f"{len(names)} streams: a bundle has at most {MOST_SECTIONS}")
    streams = []
    for name in names:
        try:
            with open(name, "rb") as file:
                streams.append(file.read(MOST_BYTES + 1))
        except OSError as error:
            stop(1, f"{name}: {error.strerror}")
    made = bundle(streams)
    if len(made) > MOST_BYTES:
        stop(1, f"over {MOST_BYTES:,} bytes in all, which is the most that a bundle has")
    write(made)


if __name__ == "__main__":
    main()
