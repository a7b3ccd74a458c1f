"""32 neighbours at once, each with an address of its own, fetch all of a file from one gateway; a 33rd is turned away."""
import hashlib
import os
import socket
import sys
import threading
import time

from rack import BLOCK, Place, content, make_torrent, wait_for, write_files

NEIGHBOURS, LENGTH, PIECE_LENGTH = 32, int(sys.argv[1]) if len(sys.argv) > 1 else 2_000_000, 65536
DATA = content("a", LENGTH)


def read(link, size):
    data = bytearray()
    while len(data) < size:
        more = link.recv(size - len(data))
        if not more:
            raise EOFError
        data += more
    return bytes(data)


def hello(number, info_hash):
    link = socket.create_connection(("127.0.0.2", 7000), timeout=300, source_address=(f"127.0.1.{number}", 0))
    link.sendall(b"\x13BitTorrent protocol" + bytes(7) + b"\x10" + info_hash[:20] + b"-LO0000-123456789012")
    read(link, 68)
    return link


def fetch(number, link, done):
    parts = []
    for at in range(0, LENGTH, BLOCK):
        parts.append((at // PIECE_LENGTH, at % PIECE_LENGTH, min(BLOCK, LENGTH - at)))
    waiting, got, data = list(reversed(parts)), 0, bytearray(LENGTH)
    request = lambda part: b"\0\0\0\x0d\x06" + b"".join(word.to_bytes(4, "big") for word in part)
    link.sendall(b"\0\0\0\x01\x02" + b"".join(request(waiting.pop()) for _ in range(min(16, len(waiting)))))
    while got < len(parts):
        message = read(link, int.from_bytes(read(link, 4), "big"))
        if message[:1] == b"\x07":
            piece, begin = int.from_bytes(message[1:5], "big"), int.from_bytes(message[5:9], "big")
            at = piece * PIECE_LENGTH + begin
            data[at : at + len(message) - 9] = message[9:]
            got += 1
            if waiting:
                link.sendall(request(waiting.pop()))
    done[number] = hashlib.sha256(data).digest() == hashlib.sha256(DATA).digest()


with Place() as place:
    torrent, info_hash = make_torrent({"a": DATA})
    gateway = place.gateway(2)
    gateway.add(torrent)
    write_files(os.path.join(gateway.folder, "data", info_hash.hex()), {"a": LENGTH})
    gateway.start()
    wait_for(lambda: gateway.is_whole(1), "the gateway judges its file")
    before = gateway.memory()
    links = [hello(number, info_hash) for number in range(1, NEIGHBOURS + 1)]
    try:
        hello(99, info_hash)
        sys.exit("a 33rd was let in")
    except (EOFError, OSError):
        pass
    done, began = {}, time.time()
    threads = [threading.Thread(target=fetch, args=(number, link, done)) for number, link in enumerate(links)]
    for thread in threads:
        thread.start()
    for thread in threads:
        thread.join(600)
    took = time.time() - began
    assert len(done) == NEIGHBOURS and all(done.values()), f"{sum(done.values())} of {NEIGHBOURS} right"
    rate = NEIGHBOURS * LENGTH / took / 1e6
    print(f"load: {NEIGHBOURS} neighbours at once, {NEIGHBOURS * LENGTH >> 20} MiB in {took:.1f} s, {rate:.1f} MB/s; "
          f"{gateway.memory() >> 20} MiB in memory, the emulator's among them, {before >> 20} before")
    assert gateway.memory() - before < NEIGHBOURS << 20, "a MiB for each connection"
print("load: passed")
