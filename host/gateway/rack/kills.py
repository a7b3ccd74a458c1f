"""kill -9, so many times at random (first argument, 100), while a gateway fetches; after each the oracle looks at what lies on disk."""
import os
import random
import shutil
import sys
import time

from rack import Place, content, files_are_right, is_saved, make_torrent, oracle, wait_for, write_files

KILLS = int(sys.argv[1]) if len(sys.argv) > 1 else 100
SIZES = {"a": 1_500_000, "b": 400_001, "c": 16384}
FILES = {path: content(path, length) for path, length in SIZES.items()}
chance = random.Random(int(os.environ.get("KD_SEED", "1")))

with Place() as place:
    torrent, info_hash = make_torrent(FILES)
    seed = place.gateway(2)
    fetcher = place.gateway(3, [2], limits="checkpoint = 1")
    for gateway in (seed, fetcher):
        gateway.add(torrent)
    write_files(os.path.join(seed.folder, "data", info_hash.hex()), SIZES)
    seed.start()
    wait_for(lambda: seed.is_whole(3), "the seed judges its files")
    marks, most, wholes = 0, 0, 0
    for kill in range(KILLS):
        fetcher.start()
        time.sleep(chance.uniform(0.3, 4.0))
        whole = fetcher.is_whole(3)
        fetcher.kill()
        seen = oracle(fetcher, info_hash, FILES)
        marks, most = marks + seen, max(most, seen)
        if whole:
            # From nothing again.
            wholes += 1
            for folder in ("data", "stores"):
                shutil.rmtree(os.path.join(fetcher.folder, folder), ignore_errors=True)
    fetcher.start()
    wait_for(lambda: fetcher.is_whole(3), "whole at last")
    files_are_right(fetcher, info_hash, FILES)
    status = fetcher.status()
    assert all(one["damaged"] == 0 for one in status["histories"]), "no mark was wrong"
    wait_for(lambda: is_saved(fetcher, info_hash, FILES), "all of it is saved")
    print(f"kills: {KILLS} kills, {marks} marks looked at, up to {most} in one save, {wholes} times whole before, nothing wrong")
print("kills: passed")
