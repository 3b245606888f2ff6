"""What is wrong with an OCI layout: layout.py LAYOUT ROOT. Each blob has the sum and the length that the list of it says, and the layers are
unpacked into the folder ROOT."""
import gzip
import hashlib
import io
import json
import pathlib
import sys
import tarfile

layout, root = map(pathlib.Path, sys.argv[1:])


def blob(told):
    content = (layout / "blobs" / told["digest"].replace(":", "/")).read_bytes()
    if told["digest"] != "sha256:" + hashlib.sha256(content).hexdigest() or told["size"] != len(content):
        print("  a blob is not what is told:", told)
    named.add(told["digest"].split(":")[1])
    return content


named = set()
[first] = json.loads((layout / "index.json").read_text())["manifests"]
manifest = json.loads(blob(first))
config = json.loads(blob(manifest["config"]))
layers = [gzip.decompress(blob(layer)) for layer in manifest["layers"]]
if config["rootfs"]["diff_ids"] != ["sha256:" + hashlib.sha256(layer).hexdigest() for layer in layers]:
    print("  the sums of the layers, unpacked:", config["rootfs"])
if config["config"] != {"Entrypoint": ["/usr/bin/toxicap"], "WorkingDir": "/work"} or (config["os"], config["architecture"]) != ("linux", "amd64"):
    print("  what it runs:", config)
if json.loads((layout / "oci-layout").read_text()) != {"imageLayoutVersion": "1.0.0"}:
    print("  the version of the layout")
if named != {path.name for path in (layout / "blobs/sha256").iterdir()}:
    print("  blobs that nothing names")
for layer in layers:
    with tarfile.open(fileobj=io.BytesIO(layer)) as files:
        for file in files:
            if (file.uid, file.gid) != (0, 0):
                print("  the owner of", file.name)
        files.extractall(root)
