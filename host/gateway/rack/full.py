"""A full disk: no save is lost, and it goes on when there is room. Needs the right to mount a small file system."""
import os
import subprocess
import sys

from rack import Place, content, files_are_right, make_torrent, oracle, wait_for, write_files

SIZES = {"a": 1_200_000, "b": 300_000}
FILES = {path: content(path, length) for path, length in SIZES.items()}


def mount(folder, *options):
    return subprocess.run(["mount", *options, folder], stderr=subprocess.DEVNULL).returncode == 0


with Place() as place:
    torrent, info_hash = make_torrent(FILES)
    seed = place.gateway(2)
    other = place.gateway(3, [2], limits="checkpoint = 1")
    if not mount(other.folder, "-t", "tmpfs", "-o", "size=900k", "tmpfs"):
        print("left out: full (no right to mount)")
        sys.exit(0)
    try:
        os.makedirs(os.path.join(other.folder, "torrents"))
        for gateway in (seed, other):
            gateway.add(torrent)
        write_files(os.path.join(seed.folder, "data", info_hash.hex()), SIZES)
        seed.start()
        other.start()
        trouble = lambda: any("trouble" in one for one in (other.status() or {"histories": []})["histories"])
        wait_for(trouble, "the page says that there is no room")
        other.kill()
        marks = oracle(other, info_hash, FILES)
        other.start()
        wait_for(trouble, "the page says so after a start too")
        assert not other.is_whole(2)
        assert mount(other.folder, "-o", "remount,size=16m")
        wait_for(lambda: other.is_whole(2), "goes on when there is room")
        files_are_right(other, info_hash, FILES)
        print(f"full: stopped with {marks} marks saved, all whole once there was room")
    finally:
        other.kill()
        subprocess.run(["umount", other.folder])
print("full: passed")
