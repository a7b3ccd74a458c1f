"""Prints SHA-256 and SHA-1, by Python's hashlib, of every string of the hash tests: a third opinion on src/bin/hashes.rs."""
import hashlib

FILLINGS = [lambda i: 0, lambda i: 0xFF, lambda i: i, lambda i: (i * i * 3 + i * 7 + 11) % 256]

for length in [*range(301), 16384, 65535, 1 << 20, 5_000_003]:
    for filling, byte in enumerate(FILLINGS):
        pattern = bytes(byte(i) for i in range(251))
        text = (pattern * (length // 251 + 1))[:length]
        print(length, filling, hashlib.sha256(text).hexdigest(), hashlib.sha1(text).hexdigest())
