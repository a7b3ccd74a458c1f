"""Gateways as processes on loopback addresses, for tests and the demo: to start, kill and look at them. KD_GATE is the command that runs one."""
import hashlib
import json
import os
import random
import shlex
import shutil
import signal
import subprocess
import sys
import tempfile
import time
import urllib.request

GATE = shlex.split(os.environ.get("KD_GATE", ""))
# An emulator on a busy machine is slow.
PATIENCE = float(os.environ.get("KD_PATIENCE", "300"))
BLOCK = 16384


class Gateway:
    """One gateway: its address, its folder, its config, its process."""

    def __init__(self, place, number, neighbours=(), extra="", limits=""):
        self.address = f"127.0.0.{number}"
        self.folder = os.path.join(place, f"gateway-{number}")
        self.log = os.path.join(place, f"gateway-{number}.log")
        self.config = os.path.join(place, f"gateway-{number}.toml")
        self.process = None
        os.makedirs(os.path.join(self.folder, "torrents"), exist_ok=True)
        listed = ", ".join(f'"127.0.0.{one}:7000"' for one in neighbours)
        with open(self.config, "w") as file:
            file.write(
                f'name = "gateway {number}"\nlisten = "{self.address}:7000"\nstatus = "{self.address}:7080"\n'
                f'folder = "{self.folder}"\nneighbours = [{listed}]\n{extra}\n[limits]\n{limits}\n'
            )

    def start(self):
        with open(self.log, "ab") as log:
            self.process = subprocess.Popen([*GATE, self.config], stderr=log, stdout=log)
        return self

    def kill(self):
        if self.process:
            self.process.send_signal(signal.SIGKILL)
            self.process.wait()
            self.process = None

    def add(self, torrent, name="rack.torrent"):
        """Puts a torrent into the folder, whole or not at all."""
        beside = os.path.join(self.folder, "torrents", "." + name)
        with open(beside, "wb") as file:
            file.write(torrent)
        os.rename(beside, os.path.join(self.folder, "torrents", name))

    def url(self, path="/"):
        return f"http://{self.address}:7080{path}"

    def status(self):
        """The page as an object, or None while it does not answer."""
        try:
            with urllib.request.urlopen(self.url("/status.json"), timeout=10) as answer:
                return json.load(answer)
        except OSError:
            return None

    def is_whole(self, files=1):
        status = self.status()
        return bool(status) and len(status["histories"]) >= files and all(one["state"] == "whole" for one in status["histories"])

    def memory(self):
        """The most bytes that the process had in memory, the emulator's among them."""
        with open(f"/proc/{self.process.pid}/status") as file:
            return next(int(line.split()[1]) * 1024 for line in file if line.startswith("VmHWM"))

    def seconds(self):
        """Seconds of a processor that the process has had."""
        with open(f"/proc/{self.process.pid}/stat") as file:
            fields = file.read().rsplit(")", 1)[1].split()
        return (int(fields[11]) + int(fields[12])) / os.sysconf("SC_CLK_TCK")


def wait_for(what, said, patience=None):
    end = time.time() + (patience or PATIENCE)
    while not what():
        if time.time() > end:
            sys.exit(f"gave up waiting: {said}")
        time.sleep(0.2)


def content(path, length):
    return random.Random(path).randbytes(length)


# Several pieces, one piece, one block, no byte.
FILES = {"cells/1.log": 2_000_003, "cells/2.log": 70_000, "cells/empty": 0, "firmware.bin": 16384, "notes": 5}


def write_files(folder, files=None):
    for path, length in (files or FILES).items():
        whole = os.path.join(folder, path)
        os.makedirs(os.path.dirname(whole), exist_ok=True)
        with open(whole, "wb") as file:
            file.write(content(path, length))


# Bencoding, trees and torrents by hashlib: no line of the library or of libtorrent.
def bencoded(value):
    if isinstance(value, int):
        return b"i%de" % value
    if isinstance(value, bytes):
        return b"%d:%s" % (len(value), value)
    return b"d" + b"".join(bencoded(key) + bencoded(value[key]) for key in sorted(value)) + b"e"


def sha(data):
    return hashlib.sha256(data).digest()


def tree(data, piece_length):
    """The leaves, the piece layer and the root of a file's bytes."""
    leaves = [sha(data[at : at + BLOCK]) for at in range(0, len(data), BLOCK)]
    layer, padding, size, pieces = list(leaves), bytes(32), BLOCK, None
    while True:
        if size == piece_length and len(data) > piece_length:
            pieces = list(layer)
        if len(layer) == 1 and size >= min(len(data), BLOCK) and (pieces is not None or len(data) <= piece_length):
            return leaves, b"".join(pieces or []), layer[0]
        if len(layer) % 2:
            layer.append(padding)
        layer = [sha(layer[at] + layer[at + 1]) for at in range(0, len(layer), 2)]
        padding, size = sha(padding + padding), size * 2


def make_torrent(files, piece_length=65536, name=b"rack"):
    """A v2 torrent of paths and their bytes."""
    folders, layers = {}, {}
    for path, data in files.items():
        node = folders
        for element in path.split("/"):
            node = node.setdefault(element.encode(), {})
        node[b""] = {b"length": len(data)}
        if data:
            _, layer, root = tree(data, piece_length)
            node[b""][b"pieces root"] = root
            if layer:
                layers[root] = layer
    info = {b"file tree": folders, b"meta version": 2, b"name": name, b"piece length": piece_length}
    return bencoded({b"info": info, b"piece layers": layers}), sha(bencoded(info))


def save_of(bytes_):
    """Facts, held positions and marks of a save, as docs/LAYOUT.md has it; an assertion fails for any other bytes."""
    word = lambda at: int.from_bytes(bytes_[at : at + 4], "big")
    assert bytes_[0] == 1 and bytes_[-5] == 4, "an opening and an end"
    length, piece_length, root = int.from_bytes(bytes_[1:9], "big"), word(9), bytes_[13:45]
    marks = word(len(bytes_) - 4)
    positions, rest = divmod(len(bytes_) - 50 - 5 * marks, 41)
    assert rest == 0 and positions >= 1, "whole records"
    held = {}
    for number in range(positions):
        at = 45 + 41 * number
        assert bytes_[at] == 2, "a position"
        held[word(at + 1), word(at + 5)] = bytes_[at + 9 : at + 41]
    marked = []
    for number in range(marks):
        at = 45 + 41 * positions + 5 * number
        assert bytes_[at] == 3, "a mark"
        marked.append(word(at + 1))
    top = max(layer for layer, _ in held)
    assert held[top, 0] == root, "the root"
    for (layer, index), value in held.items():
        if layer < top:
            left, right = held[layer, index & ~1], held[layer, index | 1]
            assert sha(left + right) == held[layer + 1, index // 2], "each pair has its parent"
    return length, piece_length, root, held, marked


def oracle(gateway, info_hash, files):
    """Every save has its form and its tree, and every mark its block on disk with the right hash. How many marks there were."""
    order = sorted(files, key=lambda path: [element.encode() for element in path.split("/")])
    stores = os.path.join(gateway.folder, "stores", info_hash.hex())
    marks = 0
    for name in os.listdir(stores) if os.path.isdir(stores) else []:
        if name.startswith("."):
            continue
        path = order[int(name.split(".")[0])]
        with open(os.path.join(stores, name), "rb") as file:
            length, piece_length, root, held, marked = save_of(file.read())
        leaves, _, true_root = tree(files[path], piece_length)
        assert (length, root) == (len(files[path]), true_root), f"{path}: of another file"
        for (layer, index), value in held.items():
            assert layer or value == (leaves[index] if index < len(leaves) else bytes(32)), f"{path}: a leaf"
        for block in marked:
            with open(os.path.join(gateway.folder, "data", info_hash.hex(), path), "rb") as file:
                file.seek(block * BLOCK)
                data = file.read(min(BLOCK, length - block * BLOCK))
            assert sha(data) == leaves[block], f"{path}: block {block} is marked, and is not on disk"
        marks += len(marked)
    return marks


def is_saved(gateway, info_hash, files):
    """Whether every block of every file is marked in a good save: a damaged one is there till the next."""
    try:
        return oracle(gateway, info_hash, files) == sum(-(-len(data) // BLOCK) for data in files.values())
    except (AssertionError, KeyError, OSError):
        return False


def files_are_right(gateway, info_hash, files):
    for path, data in files.items():
        whole = os.path.join(gateway.folder, "data", info_hash.hex(), path)
        if data:
            with open(whole, "rb") as file:
                assert file.read() == data, f"{path} differs"


class Place:
    """A folder and the gateways in it: all gone at the end."""

    def __init__(self):
        self.folder = tempfile.mkdtemp(prefix="kdgate-")
        self.gateways = []

    def gateway(self, *arguments, **more):
        self.gateways.append(Gateway(self.folder, *arguments, **more))
        return self.gateways[-1]

    def __enter__(self):
        return self

    def __exit__(self, kind, *_):
        for gateway in self.gateways:
            gateway.kill()
        if kind and kind is not SystemExit or os.environ.get("KD_KEEP"):
            print(f"kept: {self.folder}", file=sys.stderr)
        else:
            shutil.rmtree(self.folder, ignore_errors=True)
