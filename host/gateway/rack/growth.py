"""A logger appends, another gateway follows; then the owner goes back in time, and is refused."""
import os
import random
import shutil
import sys
import time

from rack import Place, wait_for

VERSIONS = int(sys.argv[1]) if len(sys.argv) > 1 else 5
chance = random.Random(3)

with Place() as place:
    log = os.path.join(place.folder, "logger")
    os.makedirs(log)
    follow = '[[follow]]\nname = "rack-7"\nfrom = "127.0.0.2:7080"\nevery = 1\n'
    own = f'[[history]]\nname = "rack-7"\npath = "{log}"\nevery = 1\n'
    owner = place.gateway(2, [3], extra=own)
    follower = place.gateway(3, [2], extra=follow)
    path = os.path.join(log, "voltage")

    def append(size):
        with open(path, "ab") as file:
            file.write(chance.randbytes(size))

    def written():
        with open(path, "rb") as file:
            return file.read()

    def newest():
        """What the follower has of the longest version, and whether all of it may be believed."""
        status = follower.status()
        rows = [one for one in status["histories"] if one["file"] == "voltage"] if status else []
        return max(rows, key=lambda one: one["length"]) if rows else None

    def follows(length):
        row = newest()
        return row and row["length"] == length and row["state"] == "whole"

    append(100_000)
    owner.start()
    follower.start()
    for version in range(VERSIONS):
        length = os.path.getsize(path)
        wait_for(lambda: follows(length), f"version {version} of {length} bytes")
        with open(os.path.join(follower.folder, "data", newest()["info_hash"], "voltage"), "rb") as file:
            assert file.read() == written(), "the same bytes"
        append(chance.choice([1, 700, 16384, 65536, 90_001]))
    length = os.path.getsize(path)
    wait_for(lambda: follows(length), "the last version")
    taken = sum(one["taken"] for one in follower.status()["neighbours"])
    assert taken < length + VERSIONS * 3 * 65536, f"{taken} bytes taken for {length}: the tail alone is fetched"
    print(f"growth: {VERSIONS + 1} versions followed, {taken} bytes taken for a history of {length}", flush=True)

    # The owner's file is cut: it does not publish that itself.
    before = written()
    with open(path, "r+b") as file:
        file.truncate(50_000)
    said = lambda gateway: next((one["said"] for one in gateway.status()["own_and_followed"]), "")
    wait_for(lambda: "younger" in said(owner), "the owner sees it")
    owner.kill()
    # An owner that has forgotten what it published, with another history under the same name.
    shutil.rmtree(os.path.join(owner.folder, "published"))
    with open(path, "wb") as file:
        file.write(before[:60_000] + chance.randbytes(len(before)))
    owner.start()
    wait_for(lambda: "younger" in said(follower), "the follower refuses it")
    time.sleep(3)
    assert follows(length), "what was accepted stays, and stays believed"
    with open(os.path.join(follower.folder, "data", newest()["info_hash"], "voltage"), "rb") as file:
        assert file.read() == before
    assert os.path.exists(os.path.join(follower.folder, "refused", "rack-7.torrent"))
    print(f"growth: {said(follower)}")
print("growth: passed")
