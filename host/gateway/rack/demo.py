"""Two gateways on loopback, one with a folder of histories: `start`, `damage`, `stop`. All of it is below the folder that is the second argument."""
import os
import random
import shutil
import signal
import sys
import time

from rack import Gateway, wait_for

HISTORIES = {"cells/1.log": 900_000, "cells/2.log": 700_001, "cells/7.log": 1_100_000, "firmware/sensor.bin": 300_000}


def gateways(folder):
    logger = os.path.join(folder, "logger")
    own = f'[[history]]\nname = "rack-7"\npath = "{logger}"\nevery = 5\n'
    follow = '[[follow]]\nname = "rack-7"\nfrom = "127.0.0.2:7080"\nevery = 5\n'
    limits = "scrub = 10\ncheckpoint = 2"
    return Gateway(folder, 2, [3], own, limits), Gateway(folder, 3, [2], follow, limits)


def write_pids(folder, pids):
    with open(os.path.join(folder, "pids"), "w") as file:
        file.write(" ".join(map(str, pids)))


def start(folder):
    stop(folder)
    shutil.rmtree(folder, ignore_errors=True)
    for path, length in HISTORIES.items():
        whole = os.path.join(folder, "logger", path)
        os.makedirs(os.path.dirname(whole), exist_ok=True)
        with open(whole, "wb") as file:
            file.write(random.Random(path).randbytes(length))
    owner, follower = gateways(folder)
    for gateway in (owner, follower):
        gateway.start()
    write_pids(folder, [gateway.process.pid for gateway in (owner, follower)])
    wait_for(lambda: owner.status() and follower.status(), "both answer")
    print(f"rack 7, whose logger writes {folder}/logger:  {owner.url()}")
    print(f"its neighbour, which follows rack-7:  {follower.url()}", flush=True)
    wait_for(lambda: follower.is_whole(len(HISTORIES)), "the neighbour has all of it")
    print("The neighbour has fetched all of it. `make gateway-damage` damages a file there, `make gateway-stop` ends both.")


def damage(folder):
    """Bytes of the neighbour's copy are changed behind its back; it finds them when it judges again, and fetches the blocks."""
    _, follower = gateways(folder)
    rows = [one for one in follower.status()["histories"] if one["file"] == "cells/7.log"]
    row = max(rows, key=lambda one: one["length"])
    path = os.path.join(follower.folder, "data", row["info_hash"], "cells/7.log")
    with open(path, "rb") as file:
        right = file.read()
    with open(path, "r+b") as file:
        file.seek(500_000)
        file.write(b"4.20 V, all is well")
    print(f"damaged: {path}, 19 bytes from 500000 on", flush=True)
    look = lambda: next(one for one in follower.status()["histories"] if one["file"] == "cells/7.log" and one["info_hash"] == row["info_hash"])
    wait_for(lambda: look()["damaged"] > row["damaged"], "it is found")
    print(f"found:   {look()['damaged'] - row['damaged']} of {row['blocks']} blocks, which is believed no longer", flush=True)
    wait_for(lambda: look()["state"] == "whole", "it is fetched again")
    with open(path, "rb") as file:
        assert file.read() == right
    print(f"fetched: {look()['state']}, and the bytes are what they were ({follower.url()})")


def stop(folder):
    try:
        with open(os.path.join(folder, "pids")) as file:
            pids = [int(pid) for pid in file.read().split()]
    except OSError:
        return
    for pid in pids:
        try:
            with open(f"/proc/{pid}/cmdline", "rb") as file:
                ours = folder.encode() in file.read()
            if ours:
                os.kill(pid, signal.SIGKILL)
        except OSError:
            pass
    os.remove(os.path.join(folder, "pids"))
    time.sleep(0.5)


{"start": start, "damage": damage, "stop": stop}[sys.argv[1]](os.path.abspath(sys.argv[2]))
