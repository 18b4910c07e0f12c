"""What stored cases tell of a call that writes: the bytes that stand in the lent buffer before it, one number for all bytes afterwards, and a refusal.
The makers of such cases share it, and it shares nothing with the engine."""
import functools


def pattern(room): return bytes(at % 251 for at in range(room))


@functools.lru_cache(64)
def mix(data):
    """One number for all bytes of a buffer."""
    total = 1
    for byte in data: total = (total * 257 + byte) % 1000003
    return total


def no(number, place, file=2): return f' refused={number} file={file} place={place}'
