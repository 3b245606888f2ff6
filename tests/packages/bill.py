"""What is wrong with a bill of materials: bill.py BILL PARTS. It has what SPDX 2.3 asks for, each library of the kit that crates.txt names, and the
sums of the parts."""
import hashlib
import json
import pathlib
import re
import sys

KNOWN = {"MIT", "Apache-2.0", "Unlicense", "BSL-1.0", "LGPL-2.1-or-later", "GPL-3.0-or-later", "GCC-exception-3.1", "NOASSERTION"}
OF_PACKAGE = {"SPDXID", "name", "downloadLocation", "licenseDeclared", "licenseConcluded", "copyrightText"}
TOP = pathlib.Path(__file__).resolve().parents[2]
bill, parts = json.loads(pathlib.Path(sys.argv[1]).read_text()), pathlib.Path(sys.argv[2])

for field in "spdxVersion", "dataLicense", "SPDXID", "name", "documentNamespace", "creationInfo":
    if not bill.get(field):
        print("  there is no", field)
elements = [*bill["packages"], *bill["files"]]
ids = [element["SPDXID"] for element in elements] + ["SPDXRef-DOCUMENT"]
if len(set(ids)) != len(ids) or not all(re.fullmatch(r"SPDXRef-[A-Za-z0-9.-]+", name) for name in ids):
    print("  identifiers:", ids)
for relation in bill["relationships"]:
    for end in "spdxElementId", "relatedSpdxElement":
        if relation[end] not in ids:
            print("  nothing is", relation[end])
related = {relation[end] for relation in bill["relationships"] for end in ("spdxElementId", "relatedSpdxElement")}
if set(ids) - related:
    print("  related to nothing:", set(ids) - related)
for package in bill["packages"]:
    if OF_PACKAGE - set(package):
        print("  fields of", package["name"])
    for licence in package["licenseDeclared"], package["licenseConcluded"]:
        if set(re.sub(r"[()]", "", licence).replace(" OR ", " ").replace(" AND ", " ").replace(" WITH ", " ").split()) - KNOWN:
            print("  the licence", licence)
for file in bill["files"]:
    content = (parts / file["fileName"]).read_bytes()
    for told in file["checksums"]:
        if hashlib.new(told["algorithm"].lower(), content).hexdigest() != told["checksumValue"]:
            print("  the sum of", file["fileName"])

# the libraries of program and library: names right of a colon that are no crates here, but for what the example alone stands on
named = {package["name"] for package in bill["packages"]}
for line in (TOP / "crates.txt").read_text().splitlines():
    head, names = line.split(":") if ":" in line and not line.startswith("#") else ("library_example", "")
    for name in names.split() if not head.startswith(("library_example", "loop_example")) else []:
        if not (TOP / "crates" / name).is_dir() and name not in named:
            print("  there is no library", name)
