"""Bits flipped in data and stores between runs and in a run: found, never served or shown, and fetched again."""
import os
import random
import sys
import time

from rack import BLOCK, Place, content, files_are_right, is_saved, make_torrent, wait_for, write_files

ROUNDS = int(sys.argv[1]) if len(sys.argv) > 1 else 10
SIZES = {"a": 1_000_000, "b": 100_001}
FILES = {path: content(path, length) for path, length in SIZES.items()}
chance = random.Random(int(os.environ.get("KD_SEED", "2")))


def flip(path, bits):
    """Flips so many bits; the blocks that they are in."""
    blocks = set()
    size = os.path.getsize(path)
    with open(path, "r+b") as file:
        for _ in range(bits):
            at = chance.randrange(size)
            file.seek(at)
            byte = file.read(1)[0]
            file.seek(at)
            file.write(bytes([byte ^ 1 << chance.randrange(8)]))
            blocks.add(at // BLOCK)
    return blocks


with Place() as place:
    torrent, info_hash = make_torrent(FILES)
    seed = place.gateway(2)
    other = place.gateway(3, [2], limits="checkpoint = 1\nscrub = 4")
    for gateway in (seed, other):
        gateway.add(torrent)
    write_files(os.path.join(seed.folder, "data", info_hash.hex()), SIZES)
    seed.start()
    other.start()
    wait_for(lambda: other.is_whole(2), "whole before")
    flipped = 0
    for turn in range(ROUNDS):
        wait_for(lambda: is_saved(other, info_hash, FILES), "all of it is saved")
        other.kill()
        targets = [os.path.join(other.folder, "data", info_hash.hex(), path) for path in SIZES]
        targets += [os.path.join(other.folder, "stores", info_hash.hex(), f"{number}.kds") for number in (0, 1)]
        for target in targets:
            bits = chance.choice([0, 1, 10, 1000])
            flip(target, bits)
            flipped += bits
        other.start()
        wait_for(lambda: other.is_whole(2), "whole again")
        files_are_right(other, info_hash, FILES)
    print(f"damage: {flipped} bits flipped between runs, in {ROUNDS} rounds, all whole and right again", flush=True)
    before = sum(one["damaged"] for one in other.status()["histories"])
    blocks = flip(os.path.join(other.folder, "data", info_hash.hex(), "a"), 3)
    began = time.time()
    damaged = lambda: sum(one["damaged"] for one in other.status()["histories"])
    wait_for(lambda: damaged() >= before + len(blocks), "found in a run")
    found = time.time() - began
    wait_for(lambda: other.is_whole(2), "fetched again in a run")
    files_are_right(other, info_hash, FILES)
    print(f"damage: found in a run after {found:.1f} s, right again after {time.time() - began:.1f} s")
print("damage: passed")
