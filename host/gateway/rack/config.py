"""`kdgate --check`: 0 and a word for a good config, 2 and each thing that is wrong for another."""
import os
import subprocess

from rack import GATE, Place

with Place() as place:
    gateway = place.gateway(2, [3])

    def check(change=lambda text: text):
        with open(gateway.config) as file:
            text = file.read()
        path = os.path.join(place.folder, "checked.toml")
        with open(path, "w") as file:
            file.write(change(text))
        return subprocess.run([*GATE, "--check", path], capture_output=True, text=True)

    good = check()
    assert good.returncode == 0 and good.stdout.endswith(": good\n"), good
    two = check(lambda text: text.replace("127.0.0.3:7000", "127.0.0.2:7000").replace('folder = "/', 'folder = "'))
    assert two.returncode == 2 and len(two.stderr.splitlines()) == 2, two
    assert "itself" in two.stderr and "not absolute" in two.stderr, two
    unknown = check(lambda text: text + "\nscrubbing = 3\n")
    assert unknown.returncode == 2 and "scrubbing" in unknown.stderr, unknown
    missing = subprocess.run([*GATE, "--check", "/nowhere.toml"], capture_output=True, text=True)
    assert missing.returncode == 2 and "/nowhere.toml" in missing.stderr, missing
    usage = subprocess.run(GATE, capture_output=True, text=True)
    assert usage.returncode == 2 and "usage" in usage.stderr, usage
print("config: passed")
