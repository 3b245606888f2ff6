"""What is wrong with a wheel: record.py WHEEL [FOLDER]. Its list has each file, with its sum and length, and its modules can be compiled. Into a
folder the package is unpacked, for a Python without pip."""
import base64
import csv
import hashlib
import pathlib
import sys
import zipfile

with zipfile.ZipFile(sys.argv[1]) as wheel:
    files = {entry.filename: wheel.read(entry) for entry in wheel.infolist()}
    [record] = [name for name in files if name.endswith("/RECORD")]
    listed = list(csv.reader(files[record].decode().splitlines()))
    if [name for name, *_ in listed] != list(files):
        print("  the list has", listed)
    for name, digest, length in listed:
        found = base64.urlsafe_b64encode(hashlib.sha256(files[name]).digest()).rstrip(b"=").decode()
        if name != record and (digest, length) != (f"sha256={found}", str(len(files[name]))):
            print("  the sum or the length of", name)
        if name.endswith(".py"):
            compile(files[name], name, "exec")
    for entry in wheel.infolist() if len(sys.argv) > 2 else []:
        path = pathlib.Path(wheel.extract(entry, sys.argv[2]))
        path.chmod(entry.external_attr >> 16 & 0o777)
