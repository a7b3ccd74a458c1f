"""Makes torrents with libtorrent (Debian's python3-libtorrent), and beside each one a text of what libtorrent says of it:

    info hash
    v1 info hash, `-` if it is no hybrid
    piece length
    for each file in tree order: length, pieces root, piece layer (`-` if it has none), v1 hashes of its pieces (likewise) and the
        zeros that the last of them covers behind the file, path elements with `/` between

Hashes, layers and path elements are in hexadecimal digits, since a name may be any bytes.

    make.py            makes the ones of KEPT in this folder
    make.py FOLDER     makes all of them in FOLDER; host/torrents does that, and compares. In FOLDER/bent it makes hybrids with one thing
                       bent, and beside each a text of the number that it has to be answered with: BENT
    make.py read FOLDER  reads the torrents that are there, and compares what it reads with the text beside each

Run it with the system's python3. The files of the torrents are made by a rule and thrown away.

Two things that libtorrent says are asked, and have to agree: its decoder (`bdecode`), which gives keys and values as they
stand, and its reader (`torrent_info`), which the info hash comes from. The reader's list of files is not the torrent's own:
  - it has padding files between the files, in a v2-only torrent too, where no byte of the torrent speaks of them; they are
    left out here;
  - its paths begin with the torrent's name, unless there is one file;
  - names that aren't UTF-8, control characters and backslashes are mended (b"d\\xe4" becomes `d_`): so the elements are the
    decoder's, and the reader's paths are compared where it leaves them alone;
  - it gives no layers: those are the decoder's too.
Its order is the tree's: by raw bytes, element by element, whatever order the files were added in.
What libtorrent takes and 01 refuses is not made here: a file above 16 GiB (25).
"""
import copy
import os
import sys
import tempfile

import libtorrent

HERE = os.path.dirname(os.path.abspath(__file__))
V2_ONLY, HYBRID = libtorrent.create_torrent.v2_only, 0
NO_TAIL = libtorrent.create_torrent.canonical_files_no_tail_padding
KEPT = ["single", "several", "hybrid", "twins"]

# Torrent name: flags, piece length, and each file's path and length. libtorrent's binding takes text only: in the
# torrents of RAW each character stands for the byte of its number, which is put into the torrent afterwards.
TORRENTS = {
    "single": (V2_ONLY, 16384, {"history": 40001}),
    "several": (
        V2_ONLY,
        32768,
        {
            "cells/a/voltage": 100000,
            "cells/a.txt": 17,
            "cells/leer": 0,
            "cells/z\xe4hler": 32768,
            "cells/\xff\xfe/\x80": 32769,
            "readme": 5,
        },
    ),
    "hybrid": (
        HYBRID,
        16384,
        {"firmware/image": 81920, "firmware/note": 5, "firmware/z\xe4hler": 100, "history": 16385, "leer": 0, "\xff": 1},
    ),
    # `ab/image` and `ba/image` have the same bytes by the rule below, and so have `ab/note` and `ba/note`, the longest short ones.
    "twins": (
        V2_ONLY,
        16384,
        {"ab/image": 40001, "ab/note": 16384, "ba/image": 40001, "ba/note": 16384, "history": 40001},
    ),
    "byte": (V2_ONLY, 16384, {"history": 1}),
    "block": (V2_ONLY, 16384, {"history": 16384}),
    "piece": (V2_ONLY, 65536, {"history": 65536}),
    "past-a-piece": (V2_ONLY, 65536, {"history": 65537}),
    "hybrid-single": (HYBRID, 16384, {"history": 50000}),
    "hybrid-whole": (HYBRID, 16384, {"history": 65536}),
    "hybrid-short": (HYBRID, 65536, {"history": 7}),
    # A folder of one file: libtorrent writes `files` then, without padding.
    "hybrid-folder": (HYBRID, 16384, {"only/history": 50000}),
    "hybrid-empty": (HYBRID, 16384, {"a": 5, "b": 0, "c/d": 16384, "c/e": 0, "f": 20000, "g": 0}),
    "hybrid-no-tail": (NO_TAIL, 16384, {"Z0": 0, "a/b": 5, "a b/c": 40000, "a.txt": 16384, "b": 0, "z": 20000}),
    "hybrid-no-tail-single": (NO_TAIL, 16384, {"history": 20000}),
    "hybrid-small": (HYBRID, 1 << 20, {f"log/{i:03}": i for i in range(40)}),
    "hybrid-large-pieces": (HYBRID, 1 << 20, {"a": 3500000, "b": 1 << 20, "c": (1 << 20) + 1}),
    "large-pieces": (V2_ONLY, 1 << 20, {"a": 3500000, "b": 1 << 20, "c": (1 << 20) + 1}),
    "utf-8": (V2_ONLY, 16384, {"z\xe4hler/spannung": 20000, "z\xe4hler/strom": 5, "\u96fb\u6c60": 7}),
    "deep": (V2_ONLY, 16384, {"/".join("abcdefghijklmnopqrstuvwxyzAB"): 20000, "a/b/zz": 1, "a.b": 2}),
    "wide": (V2_ONLY, 16384, {f"{i % 7}/{i}": i * 97 for i in range(300)}),
    "hybrid-wide": (HYBRID, 16384, {f"{i % 5}/x{i}": i * 397 for i in range(60)}),
    "any-bytes": (
        V2_ONLY,
        16384,
        {"\x01": 1, "\x02\n": 2, "a\\b": 3, " ": 4, "\xc3(": 17000, "\xed\xa0\x80": 5, "x" * 200: 6, ".hidden/..x": 7},
    ),
    "full": (HYBRID, 16384, {"bin/tool": 30000, "doc": 9}),
}
RAW = {"several", "hybrid", "any-bytes"}


def content(path, length):
    seed = sum(path)
    return bytes((i * 7 + i // 251 + seed) % 256 for i in range(length))


def written(name, path):
    """The bytes of a path as they stand in the torrent."""
    return path.encode("latin-1" if name in RAW else "utf-8")


def renamed(tree, elements):
    """A file tree whose keys have the bytes that `elements` gives for them."""
    return {elements.get(key, key): renamed(value, elements) if key != b"" else value for key, value in tree.items()}


def put_raw_names(info, paths):
    elements = {e.encode("utf-8"): e.encode("latin-1") for path in paths for e in path.split("/")}
    info[b"file tree"] = renamed(info[b"file tree"], elements)
    for entry in info.get(b"files", []):
        entry[b"path"] = [elements.get(element, element) for element in entry[b"path"]]


def fill(torrent):
    """Keys that readers of v2 skip."""
    torrent.add_tracker("http://127.0.0.1/announce", 0)
    torrent.add_tracker("http://127.0.0.2/announce", 1)
    torrent.add_url_seed("http://127.0.0.3/")
    torrent.add_node("127.0.0.4", 6881)
    torrent.set_comment("filled")
    torrent.set_creator("make.py")
    torrent.set_priv(True)


def make(name, flags, piece_length, files):
    with tempfile.TemporaryDirectory() as folder:
        storage = libtorrent.file_storage()
        # In an order that is not the tree's: libtorrent puts them in it.
        for number, (path, length) in enumerate(reversed(files.items())):
            on_disk = path if len(files) == 1 else os.path.join(name, path)
            whole = os.path.join(folder, on_disk)
            os.makedirs(os.path.dirname(whole), exist_ok=True)
            with open(whole, "wb") as file:
                # Of a folder of one file the folder is the torrent's name, and not in the path.
                in_tree = path.partition("/")[2] or path if len(files) == 1 else path
                file.write(content(written(name, in_tree), length))
            executable = libtorrent.file_flags_t.flag_executable if name == "full" and number == 0 else 0
            storage.add_file(on_disk, length, executable)
        torrent = libtorrent.create_torrent(storage, piece_length, flags)
        if name == "full":
            fill(torrent)
        libtorrent.set_piece_hashes(torrent, folder)
        made = torrent.generate()
    made.pop(b"creation date", None)  # so that a second run makes the same bytes
    if name in RAW:
        put_raw_names(made[b"info"], files)
    return libtorrent.bencode(made)


def walk(tree, path=()):
    """Each file's path and properties, by raw bytes."""
    for key, node in sorted(tree.items()):
        if set(node) == {b""}:
            yield path + (key,), node[b""]
        else:
            yield from walk(node, path + (key,))


def is_left_alone(path):
    """Whether the reader gives this path as it stands."""
    try:
        text = b"/".join(path).decode("utf-8")
    except UnicodeDecodeError:
        return False
    return text.isprintable() and "\\" not in text


def v1_hashes(info, storage, i):
    """The hashes of a file's v1 pieces, and the zeros behind it, as the reader has them."""
    length, start, size = info.piece_length(), storage.file_offset(i), storage.file_size(i)
    first, behind = start // length, -(-(start + size) // length)
    assert start % length == 0
    hashes = b"".join(info.hash_for_piece(piece) for piece in range(first, behind)) if size else b""
    zeros = min(behind * length, info.total_size()) - (start + size) if size else 0
    return hashes.hex() or "-", zeros


def listing(encoded):
    decoded = libtorrent.bdecode(encoded)
    files = list(walk(decoded[b"info"][b"file tree"]))
    info = libtorrent.torrent_info(encoded)
    storage = info.files()
    pad = libtorrent.file_flags_t.flag_pad_file
    read = [i for i in range(storage.num_files()) if not storage.file_flags(i) & pad]
    assert len(read) == len(files)
    is_hybrid = info.info_hashes().has_v1()
    assert is_hybrid == (b"pieces" in decoded[b"info"])
    yield str(info.info_hashes().v2)
    yield str(info.info_hashes().v1) if is_hybrid else "-"
    yield str(info.piece_length())
    for i, (path, properties) in zip(read, files):
        length, root = properties[b"length"], properties.get(b"pieces root", bytes(32))
        assert storage.file_size(i) == length and storage.root(i).to_bytes() == root
        is_folder = len(files) > 1 or b"files" in decoded[b"info"] or len(path) > 1
        whole = (decoded[b"info"][b"name"],) + path if is_folder else path
        assert not is_left_alone(path) or storage.file_path(i).encode() == b"/".join(whole), whole
        layer = decoded[b"piece layers"].get(root, b"").hex() or "-"
        hashes, zeros = v1_hashes(info, storage, i) if is_hybrid else ("-", 0)
        yield f"{length} {root.hex()} {layer} {hashes} {zeros} {'/'.join(element.hex() for element in path)}"


def read(folder):
    for name in sorted(os.listdir(folder)):
        if not name.endswith(".torrent"):
            continue
        place = os.path.join(folder, name)
        with open(place, "rb") as file, open(place[: -len("torrent")] + "txt", encoding="ascii") as text:
            if list(listing(file.read())) != text.read().splitlines():
                sys.exit(f"{name}: libtorrent reads something else")


# Hybrids with one thing bent in `info`: whether libtorrent's reader takes it, the library's number, and the bend.
FILES, PADDING, OF_PADDING = b"files", {b"attr": b"p", b"length": 79, b"path": [b".pad", b"79"]}, 1
BENT = {
    "as-it-is": (True, 0, lambda info: None),
    "both-keys": (True, 31, lambda info: info.update({b"length": 5})),
    "neither-key": (True, 31, lambda info: info.pop(FILES)),
    "pieces-integer": (True, 31, lambda info: info.update({b"pieces": 7})),
    "pieces-list": (True, 31, lambda info: info.update({b"pieces": []})),
    "a-hash-more": (False, 31, lambda info: info.update({b"pieces": info[b"pieces"] + bytes(20)})),
    "a-hash-less": (False, 31, lambda info: info.update({b"pieces": info[b"pieces"][20:]})),
    "a-byte-more": (False, 31, lambda info: info.update({b"pieces": info[b"pieces"] + b"a"})),
    "attr-integer": (True, 31, lambda info: info[FILES][0].update({b"attr": 1})),
    "attr-of-padding-list": (False, 31, lambda info: info[FILES][OF_PADDING].update({b"attr": [b"p"]})),
    "attr-with-more": (True, 0, lambda info: info[FILES][OF_PADDING].update({b"attr": b"xp"})),
    "padding-without-path": (True, 0, lambda info: info[FILES][OF_PADDING].pop(b"path")),
    "padding-with-empty-path": (True, 31, lambda info: info[FILES][OF_PADDING].update({b"path": []})),
    "padding-in-two": (
        False,
        0,
        lambda info: (info[FILES][OF_PADDING].update({b"length": 16300}), info[FILES].insert(OF_PADDING, PADDING)),
    ),
    "padding-of-nothing": (False, 0, lambda info: info[FILES].insert(OF_PADDING, {**PADDING, b"length": 0})),
    "padding-of-a-piece": (
        False,
        0,
        lambda info: (
            info[FILES][OF_PADDING].update({b"length": 16379 + 16384}),
            info.update({b"pieces": info[b"pieces"] + bytes(20)}),
        ),
    ),
    "padding-short": (False, 31, lambda info: info[FILES][OF_PADDING].update({b"length": 16378})),
    "no-name": (False, 0, lambda info: info.pop(b"name")),
    "name-integer": (False, 31, lambda info: info.update({b"name": 1})),
    "other-length": (
        False,
        31,
        lambda info: (info[FILES][0].update({b"length": 6}), info[FILES][OF_PADDING].update({b"length": 16378})),
    ),
    "other-order": (False, 31, lambda info: info[FILES].reverse()),
    "other-path": (False, 31, lambda info: info[FILES][0].update({b"path": [b"x"]})),
    "no-path": (False, 31, lambda info: info[FILES][0].pop(b"path")),
    "negative-length": (False, 31, lambda info: info[FILES][0].update({b"length": -5})),
    "unknown-keys": (True, 0, lambda info: info[FILES][0].update({b"sha1": bytes(20), b"mtime": 7})),
    "attr-of-info": (True, 0, lambda info: info.update({b"attr": b"p"})),
    "one-file": (True, 0, lambda info: None),
    "one-file-attr": (False, 0, lambda info: info.update({b"attr": b"p"})),
    "one-file-other-name": (False, 31, lambda info: info.update({b"name": b"other"})),
    "one-file-other-length": (False, 31, lambda info: info.update({b"length": 20001})),
    "one-file-as-files": (
        True,
        0,
        lambda info: info.update({FILES: [{b"length": info.pop(b"length"), b"path": [info[b"name"]]}]}),
    ),
    # With `canonical_files_no_tail_padding` libtorrent itself makes this.
    "empty-inside": (True, 31, lambda info: None),
}


def is_taken(encoded):
    try:
        return libtorrent.torrent_info(encoded).info_hashes().has_v2()
    except RuntimeError:
        return False


def bend(folder):
    several = make("rack", HYBRID, 16384, {"a": 5, "b": 16384, "c": 0, "d": 20000})
    single = make("rack", HYBRID, 16384, {"history": 20000})
    inside = make("rack", NO_TAIL, 16384, {"a": 16384, "b": 5, "c": 0, "d": 20000})
    for name, (taken, number, change) in BENT.items():
        torrent = libtorrent.bdecode({"one": single, "emp": inside}.get(name[:3], several))
        torrent = copy.deepcopy(torrent)
        change(torrent[b"info"])
        encoded = libtorrent.bencode(torrent)
        if is_taken(encoded) != taken:
            sys.exit(f"{name}: libtorrent says something else of it")
        with open(os.path.join(folder, name + ".torrent"), "wb") as file:
            file.write(encoded)
        with open(os.path.join(folder, name + ".txt"), "w", encoding="ascii") as file:
            file.write(f"{number}\n")


def main():
    if sys.argv[1:2] == ["read"]:
        return read(sys.argv[2])
    folder, names = (sys.argv[1], TORRENTS) if len(sys.argv) > 1 else (HERE, KEPT)
    for name in names:
        encoded = make(name, *TORRENTS[name])
        with open(os.path.join(folder, name + ".torrent"), "wb") as file:
            file.write(encoded)
        with open(os.path.join(folder, name + ".txt"), "w", encoding="ascii") as file:
            file.write("\n".join(listing(encoded)) + "\n")
    if len(sys.argv) > 1:
        os.mkdir(os.path.join(folder, "bent"))
        bend(os.path.join(folder, "bent"))


main()
