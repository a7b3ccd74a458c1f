"""A neighbour that lies, in every way that is listed below, beside an honest one: never believed, dropped or banned, and the file is whole
from the honest one. It also looks at the memory that the gateway takes."""
import hashlib
import os
import random
import shutil
import socket
import sys
import threading
import time

from rack import BLOCK, Place, content, files_are_right, make_torrent, oracle, tree, wait_for, write_files

PIECE_LENGTH = 65536
DATA = content("a", 900_000)
FILES = {"a": DATA}
LEAVES, LAYER, ROOT = tree(DATA, PIECE_LENGTH)
YESTERDAY = content("yesterday", 900_000)
PIECES = -(-len(DATA) // PIECE_LENGTH)
chance = random.Random(int(os.environ.get("KD_SEED", "4")))


def frame(message):
    return len(message).to_bytes(4, "big") + message


def words(*numbers):
    return b"".join(number.to_bytes(4, "big") for number in numbers)


def hashes(request, leaves, root=ROOT):
    """The reply to a request for leaves: run and uncles, as the tree of these leaves has them."""
    base, index, length, proof = (int.from_bytes(request[at : at + 4], "big") for at in (33, 37, 41, 45))
    layer = leaves + [bytes(32)] * ((1 << (len(leaves) - 1).bit_length()) - len(leaves))
    layers = [layer]
    while len(layers[-1]) > 1:
        row = layers[-1]
        layers.append([hashlib.sha256(row[at] + row[at + 1]).digest() for at in range(0, len(row), 2)])
    run = layers[base][index : index + length]
    height = (length - 1).bit_length()
    uncles = max(0, proof - (height - 1))
    place, path = index >> height, []
    for step in range(uncles):
        path.append(layers[base + height + step][place ^ 1])
        place >>= 1
    return b"\x16" + root + request[33:49] + b"".join(run + path)


class Liar:
    """Listens, shakes hands, says that it has all, and then lies in its way."""

    def __init__(self, address, way, info_hash):
        self.way, self.info_hash, self.said = way, info_hash, 0
        self.socket = socket.create_server((address, 7000))
        threading.Thread(target=self.listen, daemon=True).start()

    def close(self):
        # So that a thread that waits there lets go of it.
        self.socket.shutdown(socket.SHUT_RDWR)
        self.socket.close()

    def listen(self):
        while True:
            try:
                link, _ = self.socket.accept()
            except OSError:
                return
            threading.Thread(target=self.meet, args=(link,), daemon=True).start()

    def meet(self, link):
        try:
            self.talk(link)
        except (OSError, EOFError):
            pass
        finally:
            link.close()

    def read(self, link, size):
        data = b""
        while len(data) < size:
            more = link.recv(size - len(data))
            if not more:
                raise EOFError
            data += more
        return data

    def send(self, link, *messages):
        for message in messages:
            link.sendall(frame(message))
            self.said += 1

    def talk(self, link):
        link.settimeout(60)
        self.read(link, 68)
        link.sendall(b"\x13BitTorrent protocol" + bytes(7) + b"\x10" + self.info_hash[:20] + b"-LI0000-123456789012")
        everything = bytearray(-(-PIECES // 8))
        for piece in range(PIECES):
            everything[piece // 8] |= 0x80 >> piece % 8
        self.send(link, b"\x05" + everything, b"\x01")
        if self.way == "frame":
            link.sendall(b"\xff\xff\xff\xff" + bytes(100_000))
        if self.way == "random":
            link.sendall(random.randbytes(2_000_000))
        if self.way == "ids":
            for number in range(200_000):
                self.send(link, bytes([chance.randrange(256)]) + chance.randbytes(chance.randrange(60)))
        if self.way == "flood":
            while True:
                link.sendall(frame(b"\x15" + ROOT + words(0, 0, 64, 0)) * 100)
                self.said += 100
        if self.way == "unasked":
            while True:
                self.send(link, b"\x16" + ROOT + words(0, 0, 64, 0) + b"".join((LEAVES + [bytes(32)] * 9)[:64]))
                self.send(link, b"\x07" + words(0, 0) + DATA[:BLOCK])
        if self.way == "silence":
            time.sleep(60)
        while True:
            size = int.from_bytes(self.read(link, 4), "big")
            message = self.read(link, size)
            if message[:1] == b"\x15":
                self.send(link, self.reply(message))
            if message[:1] == b"\x06":
                self.send(link, self.block(message))

    def reply(self, request):
        if self.way == "hashes":
            wrong = list(LEAVES)
            wrong[chance.randrange(len(wrong))] = chance.randbytes(32)
            return hashes(request, wrong)
        if self.way == "yesterday":
            leaves, _, root = tree(YESTERDAY, PIECE_LENGTH)
            return hashes(request, leaves, chance.choice([root, ROOT]))
        if self.way == "sizes":
            return hashes(request, LEAVES)[: -chance.randrange(1, 100)]
        if self.way in ("reject", "leafless"):
            return b"\x17" + request[1:]
        return hashes(request, LEAVES)

    def block(self, request):
        piece, begin, size = (int.from_bytes(request[at : at + 4], "big") for at in (1, 5, 9))
        at = piece * PIECE_LENGTH + begin
        data = (YESTERDAY if self.way == "yesterday" else DATA)[at : at + size]
        if self.way in ("blocks", "reject") or self.way == "seldom" and chance.randrange(8) == 0:
            data = bytes([data[0] ^ 1]) + data[1:]
        if self.way == "sizes":
            data = data[:-1]
        return b"\x07" + request[1:9] + data


# What comes of it: a ban for what is provably wrong, else only that it is not believed.
WAYS = {
    "blocks": True, "seldom": True, "hashes": True, "yesterday": None, "reject": True, "sizes": False, "frame": False,
    "random": False, "ids": False, "flood": False, "unasked": False, "silence": False, "leafless": False,
}  # fmt: skip
if len(sys.argv) > 1:
    WAYS = {way: WAYS[way] for way in sys.argv[1].split(",")}

with Place() as place:
    torrent, info_hash = make_torrent(FILES)
    honest = place.gateway(2)
    honest.add(torrent)
    write_files(os.path.join(honest.folder, "data", info_hash.hex()), {"a": len(DATA)})
    honest.start()
    wait_for(lambda: honest.is_whole(1), "the honest one judges its file")
    honest.kill()
    said, most = 0, 0
    for way, banned in WAYS.items():
        # The liar alone first, then the honest one comes.
        victim = place.gateway(3, [2, 9], limits="checkpoint = 1\npatience = 3\nsilence = 5")
        victim.add(torrent)
        liar = Liar("127.0.0.9", way, info_hash)
        victim.start()
        wait_for(lambda: victim.status() and liar.said > 0, f"{way}: it was heard")
        time.sleep(2)
        if way == "leafless":
            # No liar at all: it has right blocks and no leaves, so whole pieces of its are judged.
            wait_for(lambda: victim.is_whole(1), f"{way}: whole from it alone")
        honest.start()
        wait_for(lambda: victim.is_whole(1), f"{way}: whole from the honest one")
        row = next(one for one in victim.status()["neighbours"] if one["address"].startswith("127.0.0.9"))
        if banned is not None:
            assert ("banned_seconds" in row) == banned, f"{way}: {row}"
        files_are_right(victim, info_hash, FILES)
        most = max(most, victim.memory())
        honest.kill()
        victim.kill()
        assert oracle(victim, info_hash, FILES) <= 55
        liar.close()
        said += liar.said
        print(f"liar: {way}: {liar.said} messages, refusals by number {row['refusals']}, {row.get('last_end', '')}", flush=True)
        for folder in ("data", "stores"):
            shutil.rmtree(os.path.join(victim.folder, folder), ignore_errors=True)
    print(f"liar: {len(WAYS) - ('leafless' in WAYS)} ways, {said} messages, nothing believed; at most {most >> 20} MiB in memory, the emulator's among them")
print("liar: passed")
os._exit(0)
