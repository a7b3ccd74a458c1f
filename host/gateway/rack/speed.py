"""One transfer between two gateways and one between two libtorrents: the same file, one after the other, in one run. Beside the time it says what
they had of processors, both ends together, which other programs on the machine change less."""
import os
import platform
import sys
import time

import libtorrent
from rack import Place, content, make_torrent, wait_for, write_files

LENGTH = (int(sys.argv[1]) if len(sys.argv) > 1 else 32) << 20
# Two files, so that libtorrent has a folder for them.
SIZES = {"a": LENGTH, "notes": 5}


def session(number):
    off = ["enable_dht", "enable_lsd", "enable_upnp", "enable_natpmp", "enable_incoming_utp", "enable_outgoing_utp"]
    settings = {"listen_interfaces": f"127.0.0.{number}:7000", "in_enc_policy": 2, "out_enc_policy": 2}
    return libtorrent.session({**settings, **{name: False for name in off}})


with Place() as place:
    torrent, info_hash = make_torrent({path: content(path, length) for path, length in SIZES.items()}, piece_length=262144)
    seed, fetcher = place.gateway(2), place.gateway(3, [2])
    seed.add(torrent)
    write_files(os.path.join(seed.folder, "data", info_hash.hex()), SIZES)
    seed.start()
    fetcher.start()
    wait_for(lambda: seed.is_whole(2) and fetcher.status(), "the seed judges its file")
    began, processors = time.time(), seed.seconds() + fetcher.seconds()
    fetcher.add(torrent)
    started = lambda: any(one["believed"] for one in fetcher.status()["histories"])
    wait_for(started, "the transfer begins")
    first, before = time.time(), sum(one["believed"] for one in fetcher.status()["histories"])
    wait_for(lambda: fetcher.is_whole(2), "the transfer ends", 1200)
    processors = seed.seconds() + fetcher.seconds() - processors
    ours = (LENGTH - before * 16384) / (time.time() - first) / 1e6
    seed.kill()
    fetcher.kill()

    info = libtorrent.torrent_info(libtorrent.bdecode(torrent))
    place_of_seed, place_of_client = (os.path.join(place.folder, name) for name in ("seed", "client"))
    write_files(os.path.join(place_of_seed, "rack"), SIZES)
    seeding, fetching = session(4), session(5)
    one = seeding.add_torrent({"ti": info, "save_path": place_of_seed})
    wait_for(lambda: one.status().is_seeding, "libtorrent checks its file")
    other = fetching.add_torrent({"ti": libtorrent.torrent_info(libtorrent.bdecode(torrent)), "save_path": place_of_client})
    other.connect_peer(("127.0.0.4", 7000))
    theirs_processors = time.process_time()
    end = time.time() + 1200
    first = None
    while not other.status().is_seeding and time.time() < end:
        if first is None and other.status().total_done:
            first, before = time.time(), other.status().total_done
        time.sleep(0.01)
    theirs = (LENGTH - (before if first else 0)) / (time.time() - (first or began)) / 1e6
    theirs_processors = time.process_time() - theirs_processors
    emulated = platform.machine() != "x86_64"
    print(f"speed: {LENGTH >> 20} MiB, gateways {ours:.1f} MB/s, libtorrents {theirs:.1f} MB/s, ratio {ours / theirs:.2f}"
          + (f" (the gateways under an emulator of x86-64 on {platform.machine()}, libtorrent not)" if emulated else ""))
    print(f"speed: {LENGTH / processors / 1e6:.1f} MB for each second of a processor, libtorrents {LENGTH / theirs_processors / 1e6:.1f} MB")
    if not emulated:
        assert ours >= 0.5 * theirs
print("speed: passed")
sys.stdout.flush()
os._exit(0)
