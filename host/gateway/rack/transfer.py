"""Three gateways and a libtorrent: data at one gateway, then at libtorrent alone, then at the gateways alone."""
import os
import sys
import time

import libtorrent
from rack import FILES, Place, content, files_are_right, make_torrent, wait_for, write_files

FIRST = {path: content(path, length) for path, length in FILES.items()}
SECOND = {"rack/" + path: length + 100_000 for path, length in FILES.items() if length}


def session(number):
    off = ["enable_dht", "enable_lsd", "enable_upnp", "enable_natpmp", "enable_incoming_utp", "enable_outgoing_utp"]
    settings = {"listen_interfaces": f"127.0.0.{number}:7000", "in_enc_policy": 2, "out_enc_policy": 2}
    settings["outgoing_interfaces"] = f"127.0.0.{number}"
    return libtorrent.session({**settings, **{name: False for name in off}})


def made_by_libtorrent(folder):
    storage = libtorrent.file_storage()
    for path, length in SECOND.items():
        storage.add_file(path, length)
    torrent = libtorrent.create_torrent(storage, 65536, libtorrent.create_torrent.v2_only)
    libtorrent.set_piece_hashes(torrent, folder)
    return libtorrent.bencode(torrent.generate())


with Place() as place:
    torrent, info_hash = make_torrent(FIRST)
    gateways = [place.gateway(number, [one for one in (2, 3, 4, 5) if one != number]) for number in (2, 3, 4)]
    for gateway in gateways:
        gateway.add(torrent)
    write_files(os.path.join(gateways[0].folder, "data", info_hash.hex()))
    began = time.time()
    for gateway in gateways:
        gateway.start()
    wait_for(lambda: all(gateway.is_whole(len(FILES)) for gateway in gateways), "data at one gateway")
    for gateway in gateways:
        files_are_right(gateway, info_hash, FIRST)
    print(f"transfer: two gateways whole from one after {time.time() - began:.1f} s", flush=True)

    # libtorrent alone has the second torrent, which it made.
    seeded = os.path.join(place.folder, "seeded")
    write_files(seeded, SECOND)
    encoded = made_by_libtorrent(seeded)
    seed = session(5)
    info = libtorrent.torrent_info(libtorrent.bdecode(encoded))
    handle = seed.add_torrent({"ti": info, "save_path": seeded})
    wait_for(lambda: handle.status().is_seeding, "libtorrent checks its files")
    began = time.time()
    for gateway in gateways:
        gateway.add(encoded, "second.torrent")
    number = len(FILES) + len(SECOND)
    wait_for(lambda: all(gateway.is_whole(number) for gateway in gateways), "data at libtorrent alone")
    second = {path[len("rack/") :]: content(path, length) for path, length in SECOND.items()}
    for gateway in gateways:
        files_are_right(gateway, bytes.fromhex(str(info.info_hashes().v2)), second)
    print(f"transfer: three gateways whole from libtorrent after {time.time() - began:.1f} s", flush=True)

    # The first gateway is taken away, and libtorrent fetches from the others what it has not seen.
    gateways[0].kill()
    began = time.time()
    fetched = os.path.join(place.folder, "fetched")
    info = libtorrent.torrent_info(libtorrent.bdecode(torrent))
    client = seed.add_torrent({"ti": info, "save_path": fetched})
    client.connect_peer(("127.0.0.3", 7000))
    client.connect_peer(("127.0.0.4", 7000))
    wait_for(lambda: client.status().is_seeding, "libtorrent fetches from gateways")
    seed.remove_torrent(client)
    for path, data in FIRST.items():
        with open(os.path.join(fetched, "rack", path), "rb") as file:
            assert file.read() == data, path
    print(f"transfer: libtorrent whole from two gateways after {time.time() - began:.1f} s")
    served = sum(one["served"] for gateway in gateways[1:] for one in gateway.status()["neighbours"])
    assert served >= sum(len(data) for data in FIRST.values())
    for gateway in gateways[1:]:
        for one in gateway.status()["neighbours"]:
            assert not one["refusals"] and "banned_seconds" not in one, one
print("transfer: passed")
sys.stdout.flush()
os._exit(0)
