"""The status page in a real browser: headless Chromium opens it, and what it shows is looked for in its text. The picture is kept beside the
program, target/gateway/page.png, for a person to look at."""
import os
import shutil
import subprocess
import sys

from rack import FILES, GATE, Place, content, make_torrent, wait_for, write_files

BROWSER = shutil.which("chromium") or shutil.which("chromium-browser") or shutil.which("google-chrome")
if not BROWSER:
    print("left out: page (there is no Chromium)")
    sys.exit(0)
FLAGS = ["--headless", "--no-sandbox", "--disable-gpu", "--window-size=1200,1000", "--hide-scrollbars"]


def browse(*words):
    done = subprocess.run([BROWSER, *FLAGS, *words], capture_output=True, text=True, timeout=300)
    return done.stdout


with Place() as place:
    torrent, info_hash = make_torrent({path: content(path, length) for path, length in FILES.items()})
    first = place.gateway(2, [3], limits="scrub = 5")
    other = place.gateway(3, [2, 9], extra='[[follow]]\nname = "rack-9"\nfrom = "127.0.0.9:7080"\nevery = 1\n')
    for gateway in (first, other):
        gateway.add(torrent)
    write_files(os.path.join(first.folder, "data", info_hash.hex()))
    # A torrent that nobody has, one that is none, and a name that would be a script.
    other.add(make_torrent({"<script>alert(1)</script>": content("x", 100_000)}, name=b"<b>nobody has it</b>")[0], "nobody.torrent")
    other.add(b"d4:infod4:name3:zzzee", "broken.torrent")
    first.start()
    other.start()
    rows = lambda: {one["file"]: one["state"] for one in (other.status() or {"histories": []})["histories"]}
    wait_for(lambda: list(rows().values()).count("whole") == len(FILES) and "partly" in rows().values(), "all that can be had is here")
    picture = os.path.join(os.path.dirname(GATE[-1]), "page.png")
    browse(f"--screenshot={picture}", other.url())
    text = browse("--dump-dom", other.url())
    for wanted in ["cells/1.log", "whole", "0 of 7 blocks", "nowhere now", "broken.torrent", "(22)", "127.0.0.2:7000", "connected",
                   "&lt;script&gt;", "&lt;b&gt;nobody has it"]:
        assert wanted in text, f"{wanted}: {text}"
    assert "<script" not in text
    assert os.path.getsize(picture) > 10_000
    print(f"page: opened in {os.path.basename(BROWSER)}, {os.path.getsize(picture)} bytes of picture in {picture}")
print("page: passed")
