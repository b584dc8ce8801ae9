"""`unpack -f` in real use: an old file is replaced as a whole, or stays."""

import os
import random
import signal
import time

from common import FOLDER, FORBIDDEN, FullDisk, Link, limit_files, make, names, read, state, write_fault
from in_place_faults import FULL, TOO_LARGE, disk_full

NEW = b"new\n" * 50_000


def parts(**contents):
    """A message with these files, each named as its keyword with a dot for an underscore."""
    text = b"Content-Type: multipart/mixed; boundary=cut\n\n"
    for name, content in contents.items():
        text += b"--cut\nContent-Type: image/gif; name=%s\n\n%s\n" % (name.replace("_", ".").encode(), content)
    return text + b"--cut--\n"


def said(*files):
    return "".join(f"{name} (image/gif)\n" for name in files).encode()


def check_replaced(program):
    """Files, links and hard links."""
    folder = program.folder()
    make(folder, {"a.gif": b"old", "target": b"kept", "l.gif": Link("target"), "gone.gif": Link("none"), "h.gif": b"hard"})
    os.link(os.path.join(folder, "h.gif"), os.path.join(folder, "hard"))
    before = state(folder, "target")
    message = parts(a_gif=NEW, l_gif=b"1", gone_gif=b"2", h_gif=b"3", fresh_gif=b"4", empty_gif=b"")
    found = program.run(["unpack", "-f"], folder, message)
    files = ["a.gif", "l.gif", "gone.gif", "h.gif", "fresh.gif", "empty.gif"]
    program.ended("unpack -f", found, output=said(*files),
                  texts=([NEW, b"1", b"2", b"3", b"4", b""], [read(folder, name) for name in files]),
                  links=([], [name for name in files if os.path.islink(os.path.join(folder, name))]),
                  target=(before, state(folder, "target")), hard=(b"hard", read(folder, "hard")),
                  files=(sorted([*files, "hard", "target"]), names(folder)))
    found = program.run(["unpack", "-f"], folder, parts(a_gif=b"", l_gif=NEW))
    program.ended("unpack -f again, shorter and longer", found, output=said("a.gif", "l.gif"),
                  texts=([b"", NEW], [read(folder, "a.gif"), read(folder, "l.gif")]))


def check_folder_links(program):
    """A link to a folder is replaced by a file, and nothing goes into the folder."""
    folder = program.folder()
    make(folder, {"d": Link("inner"), "inner": FOLDER})
    found = program.run(["unpack", "-f"], folder, parts(d=b"1"))
    program.ended("a link to a folder", found, output=said("d"),
                  link=(False, os.path.islink(os.path.join(folder, "d"))), text=(b"1", read(folder, "d")), files=(["d", "inner"], names(folder)))


def check_fresh_names(program):
    """Files with the names of fresh ones, there before or in the message itself."""
    folder = program.folder()
    make(folder, {"a.gif": b"old", ".a.gif.1.new": b"kept"})
    found = program.run(["unpack", "-f"], folder, parts(a_gif=b"1"))
    program.ended("a fresh name that is taken", found, output=said("a.gif"), text=(b"1", read(folder, "a.gif")),
                  other=(b"kept", read(folder, ".a.gif.1.new")), files=([".a.gif.1.new", "a.gif"], names(folder)))
    for files in (["a.gif", "a.gif.1.new"], ["a.gif.1.new", "a.gif"]):
        folder = program.folder()
        contents = {"a.gif": b"1", "a.gif.1.new": b"2"}
        found = program.run(["unpack", "-f"], folder, parts(**{name.replace(".", "_"): contents[name] for name in files}))
        program.ended("a fresh name in the message", found, output=said(*files), text=(b"1", read(folder, "a.gif")),
                      other=(b"2", read(folder, "a.gif.1.new")), files=(["a.gif", "a.gif.1.new"], names(folder)))


def row(program, shows, folder, words, why, there, **options):
    """The first part can be written, the second can't: the first is the new one, and of the second only the old file is there."""
    make(folder, there)
    before = state(folder, "b.gif") if "b.gif" in there else None
    found = program.run(words, folder, parts(a_gif=b"1", b_gif=NEW, c_gif=b"3"), **options)
    held = {"a.gif": b"1", **{name: text for name, text in there.items() if name != "a.gif"}}
    path = "./b.gif" if "-C" not in words else "d/b.gif"
    texts = [write_fault(path, why), write_fault("b.gif", why)]
    program.ended(f"{shows}: {' '.join(words)}", found, 3, output=said("a.gif"),
                  errors=texts, files=(sorted(held), names(folder)),
                  contents=(held, {name: read(folder, name) for name in names(folder)}),
                  old=(before, state(folder, "b.gif") if before and "b.gif" in names(folder) else None))


def check_limits(program):
    """A limit on the size of files."""
    for limit in (1, 4096, len(NEW) - 1):
        row(program, f"files of {limit} bytes", program.folder(), ["unpack", "-f"], TOO_LARGE, {"a.gif": b"old", "b.gif": b"old"},
            before=limit_files(limit))
        row(program, f"files of {limit} bytes", program.folder(), ["unpack"], TOO_LARGE, {}, before=limit_files(limit))
        row(program, f"files of {limit} bytes, none there", program.folder(), ["unpack", "-f"], TOO_LARGE, {}, before=limit_files(limit))


def check_full(program):
    """A full disk."""
    with FullDisk(program, "1m") as disk:
        if not disk.mounted:
            print("in-place: full disks are left out: no file system can be mounted here")
            return
        for words, there in (
            (["unpack", "-f"], {"a.gif": b"old", "b.gif": b"old"}), (["unpack"], {}), (["unpack", "-f"], {"b.gif": NEW[::-1]}),
        ):
            make(disk.path, there)
            disk_full(disk, 100_000)
            filling = read(disk.path, "filling")
            row(program, "a full disk", disk.path, words, FULL, {**there, "filling": filling})
            for name in os.listdir(disk.path):
                os.unlink(os.path.join(disk.path, name))


def check_closed(program):
    """A folder without write permission."""
    for files in ({"a.gif": b"old"}, {}):
        for words in (["unpack"], ["unpack", "-f"]):
            outer = program.folder()
            folder = os.path.join(outer, "d")
            os.mkdir(folder)
            make(folder, files)
            os.chmod(folder, 0o555)
            found = program.run([*words, "-C", "d"], outer, parts(a_gif=NEW))
            name = "a.gif.1" if files and words == ["unpack"] else "a.gif"
            program.ended(f"a closed folder: {' '.join(words)}, {len(files)} files", found, 3,
                          errors=write_fault(f"d/{name}", FORBIDDEN), files=(sorted(files), names(folder)),
                          contents=(files, {name: read(folder, name) for name in files}))


def check_kills(program):
    """A run that is killed leaves each file old or new."""
    chance, folder = random.Random(4), program.folder()
    files = {f"p{number}": b"old %d\n" % number * 20_000 for number in range(20)}
    fresh = {name: text.replace(b"old", b"new") for name, text in files.items()}
    make(folder, {"message": parts(**fresh), **files})
    words = ["unpack", "-f", "--from", "message"]
    begin = time.monotonic()
    program.run(words, folder, nobody=False)
    whole = time.monotonic() - begin
    for number in range(60):
        make(folder, files)
        there = names(folder)
        process = program.start(words, folder)
        time.sleep(chance.random() * whole)
        process.send_signal(signal.SIGKILL)
        process.communicate()
        texts = {name: read(folder, name) for name in files}
        torn = [name for name, text in texts.items() if text not in (files[name], fresh[name])]
        left = [name for name in names(folder) if name not in there]
        program.expect(f"unpack -f, kill {number}", torn=([], torn),
                       fresh=(True, len(left) <= 1 and all(name.endswith(".new") for name in left)))
    found = program.run(words, folder, nobody=False)
    program.ended("unpack -f after the killed runs", found, output=said(*files),
                  texts=(fresh, {name: read(folder, name) for name in files}))


CHECKS = [check_replaced, check_folder_links, check_fresh_names, check_limits, check_full, check_closed, check_kills]
