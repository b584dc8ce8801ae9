"""Prints a message as one JSON object for a ticket system: its subject, and its
leaves with their paths, types and contents (those of texts as text, of others
only their size).

usage: python3 ticket.py MESSAGE
"""

import json
import subprocess
import sys


def mimetool(*words):
    with open(sys.argv[1], "rb") as message:
        return subprocess.run(["mimetool", *words], stdin=message, stdout=subprocess.PIPE, check=True).stdout


parts = []
for line in mimetool("sections").decode().splitlines():
    path, kind, media, *_ = line.split(" ")
    if kind == "leaf":
        content = mimetool("extract", "-s", path)
        part = {"path": path, "type": media, "bytes": len(content)}
        if media.startswith("text/"):
            part["text"] = content.decode("utf-8", "replace")
        parts.append(part)
subject = mimetool("field", "-x", "Subject:").decode("utf-8", "replace").strip()
json.dump({"subject": subject, "parts": parts}, sys.stdout, indent=1)
print()
