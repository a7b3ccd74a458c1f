"""libtorrent (Debian's python3-libtorrent, with the system's python3) and the host program meet on loopback, in both
directions. Arguments: the host program's command. Ends by itself, with an exit other than 0 if anything fails."""
import os
import subprocess
import sys
import tempfile
import time

import libtorrent

HOST = sys.argv[1:]
PATIENCE = 100
PIECE_LENGTH = 65536
# Several runs of 512 leaves, a piece layer, one piece, one block, no byte, paths that sort by element.
FILES = {
    "cells/a/voltage": 600 * 16384 + 77,
    "cells/a.txt": 17,
    "cells/empty": 0,
    "cells/temperature": 81920,
    "cells/whole piece": 65536,
    "firmware": 300000,
}


def content(path, length):
    seed = sum(path.encode())
    line = bytes((i * 7 + i // 251 + seed) % 256 for i in range(65521))
    return (line * (length // len(line) + 1))[:length]


def write_files(folder):
    for path, length in FILES.items():
        whole = os.path.join(folder, "rack", path)
        os.makedirs(os.path.dirname(whole), exist_ok=True)
        with open(whole, "wb") as file:
            file.write(content(path, length))


def make_torrent(folder, flags):
    storage = libtorrent.file_storage()
    for path, length in FILES.items():
        storage.add_file("rack/" + path, length)
    torrent = libtorrent.create_torrent(storage, PIECE_LENGTH, flags)
    libtorrent.set_piece_hashes(torrent, folder)
    return libtorrent.bencode(torrent.generate())


def session():
    switched_off = ["enable_dht", "enable_lsd", "enable_upnp", "enable_natpmp"]
    switched_off += ["enable_incoming_utp", "enable_outgoing_utp"]
    settings = {"listen_interfaces": "127.0.0.1:0", "in_enc_policy": 2, "out_enc_policy": 2}
    return libtorrent.session({**settings, **{name: False for name in switched_off}})


def wait_for(handle, what):
    end = time.time() + PATIENCE
    while not what(handle.status()):
        if time.time() > end:
            sys.exit(f"interop: gave up waiting; {handle.status().state}, {handle.status().progress:.2f}")
        time.sleep(0.1)


def host_fetches_from_seed(torrent, encoded, folder):
    """libtorrent seeds; the host gets every hash and every block."""
    seed = session()
    # Without seed_mode it checks the files, and then answers for leaves too.
    handle = seed.add_torrent({"ti": libtorrent.torrent_info(libtorrent.bdecode(encoded)), "save_path": folder})
    wait_for(handle, lambda status: status.is_seeding)
    subprocess.run([*HOST, "fetch", torrent, str(seed.listen_port())], check=True, timeout=PATIENCE)


def client_fetches_from_host(torrent, encoded, folder, empty):
    """A libtorrent that knows the magnet link only completes everything from the host."""
    host = subprocess.Popen([*HOST, "serve", torrent, os.path.join(folder, "rack")], stdout=subprocess.PIPE, text=True)
    try:
        port = int(host.stdout.readline().split()[1])
        info_hash = libtorrent.torrent_info(libtorrent.bdecode(encoded)).info_hashes().v2
        parameters = libtorrent.parse_magnet_uri(f"magnet:?xt=urn:btmh:1220{info_hash}")
        parameters.save_path = empty
        client = session()
        handle = client.add_torrent(parameters)
        handle.connect_peer(("127.0.0.1", port))
        wait_for(handle, lambda status: status.is_seeding)
        client.remove_torrent(handle)
        del handle, client
        print(host.communicate(timeout=PATIENCE)[0], end="")
        if host.returncode != 0:
            sys.exit(f"interop: the host ended with {host.returncode}")
    finally:
        host.kill()
    for path, length in FILES.items():
        with open(os.path.join(empty, "rack", path), "rb") as file:
            if file.read() != content(path, length):
                sys.exit(f"interop: {path} differs")


with tempfile.TemporaryDirectory() as folder, tempfile.TemporaryDirectory() as empty:
    write_files(folder)
    encoded, hybrid = make_torrent(folder, libtorrent.create_torrent.v2_only), make_torrent(folder, 0)
    torrent, of_both = os.path.join(folder, "rack.torrent"), os.path.join(folder, "hybrid.torrent")
    for name, bytes_of in ((torrent, encoded), (of_both, hybrid)):
        with open(name, "wb") as file:
            file.write(bytes_of)
    print(f"libtorrent {libtorrent.version} seeds, the host fetches and judges", flush=True)
    host_fetches_from_seed(torrent, encoded, folder)
    print("libtorrent seeds a hybrid, the host judges by both halves", flush=True)
    host_fetches_from_seed(of_both, hybrid, folder)
    print("libtorrent has the magnet link, the host serves", flush=True)
    client_fetches_from_host(torrent, encoded, folder, empty)
    print(f"{len(FILES)} files complete and the same")
