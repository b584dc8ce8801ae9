"""Prints size, name and message of each attachment; the size is that in the message, encoded, in bytes.

usage: python3 attachments.py MESSAGE..
"""

import json
import subprocess
import sys

for path in sys.argv[1:]:
    listing = subprocess.run(["mimetool", "sections", "--json", "--from", path], stdout=subprocess.PIPE, check=True)
    for section in map(json.loads, listing.stdout.splitlines()):
        if section["kind"] == "leaf" and ("filename" in section or not section["type"].startswith("text/")):
            print(section["end"] - section["body"], section["stored_as"], path, sep="\t")
