"""Where the Python module finds its library, its examples, and its wheels, for checks/python."""

import os
import re
import shutil
import subprocess
import sys

from python_rows import ALBUM

TOP = os.path.dirname(os.path.dirname(os.path.abspath(__file__)))
PIP = [sys.executable, "-m", "pip", "--disable-pip-version-check"]
LACKS = ["invalid command 'bdist_wheel'", "No module named 'setuptools'", "BackendUnavailable", "No module named pip"]
ASKS = "import mimetool; s = mimetool.Session(b'A: b\\n\\n'); s.add_field((1,), 'C: d'); print(s.text())"

def child(words, folder, **variables):
    kept = {name: value for name, value in os.environ.items() if not name.startswith(("PYTHON", "MIMETOOL", "PIP"))}
    return subprocess.run(words, cwd=folder, env={**kept, "PYTHONDONTWRITEBYTECODE": "1", **variables}, text=True, timeout=300,
                          stdout=subprocess.PIPE, stderr=subprocess.STDOUT)


def example(name, words, given, library, module, folder):
    """Runs a script of examples/ in a folder."""
    script = os.path.join(TOP, "examples", name)
    return subprocess.run([sys.executable, script, *words], input=given, capture_output=True, timeout=120, cwd=folder,
                          env={**os.environ, "PYTHONPATH": module, "MIMETOOL_LIBRARY": library, "PYTHONDONTWRITEBYTECODE": "1"})


# A mailbox of five messages: the second and the fifth are of a list, the third is urgent.
MAIL = [b"From a\nSubject: one\n two\n\n1\n\n", b"From b\nList-Id: The news <news.example.org>\nSubject: urgent\n\n2\n\n",
        b"From c\nsubject:Urgent: call\n\n3\n\n", b"From d\nTo: b\n\n4\n\n", b"From e\nList-ID: <../x>\nSubject: y\n\n5\n"]
TAGGED = [b"From a\nSubject: [x] one\n two\n\n1\n\n", b"From c\nSubject: [x] Urgent: call\n\n3\n\n",
          b"From d\nTo: b\nSubject: [x]\n\n4\n\n"]
FORWARDED = (b'From: me@example.org\nTo: me@example.org\nSubject: urgent mail\nMIME-Version: 1.0\n'
             b'Content-Type: multipart/mixed; boundary="BOUND"\n\n--BOUND\nContent-Type: text/plain; charset=us-ascii\n'
             b"Content-Transfer-Encoding: quoted-printable\n\nThis came in, and says that it is urgent.\n\n--BOUND\n"
             b"Content-Type: message/rfc822\nContent-Disposition: attachment\n\nsubject:Urgent: call\n\n3\n\n\n--BOUND--\n")


def filter_example(cases, library, module):
    """examples/filter.py tags, files and forwards."""
    folder = os.path.join(module, "filtered")
    os.mkdir(folder)
    words = ["[x]", ".", "me@example.org"]
    run = example("filter.py", words, b"".join(MAIL), library, module, folder)
    cases.expect("filter.py tags", (0, b"".join(TAGGED), b""), (run.returncode, run.stdout, run.stderr))
    found = {}
    for name in os.listdir(folder):
        with open(os.path.join(folder, name), "rb") as file:
            found[name] = file.read()
    made = found.pop("forward-3.eml", b"")
    filed = {"The-news-news.example.org.mbox": MAIL[1], "x.mbox": MAIL[4] + b"\n"}
    cases.expect("filter.py files", filed, found)
    bound = made.split(b'boundary="')[1].split(b'"')[0] if b"boundary=" in made else b""
    cases.expect("filter.py forwards", FORWARDED.replace(b"BOUND", bound), made)
    with open(os.path.join(TOP, "examples", "album.eml"), "rb") as file:
        album = file.read()
    run = example("filter.py", words, album, library, module, folder)
    cases.expect("filter.py of one message", (0, album.replace(b"Subject: ", b"Subject: [x] ", 1)), (run.returncode, run.stdout))


def survey_example(cases, library, module):
    """examples/survey.py goes over 10,000 messages: nine of ten are texts of 11 bytes, the empty line at the end too; the tenth has a text of
    10 bytes, a picture of 300, and a content of none."""
    plain = b"From a\nContent-Type: text/plain\n\n123456789\n\n"
    mixed = (b"From b\nContent-Type: multipart/mixed; boundary=b\n\n--b\nContent-Type: text/plain\n\n1234567890\n--b\n"
             b"Content-Type: image/png\nContent-Transfer-Encoding: base64\n\n" + b"AAAA" * 100 + b"\n--b\nContent-Type: x/y\n"
             b"Content-Transfer-Encoding: base64\n\n!\n--b--\n\n")
    with open(os.path.join(module, "box"), "wb") as file:
        file.write((plain * 9 + mixed) * 1000)
    run = example("survey.py", ["box"], b"", library, module, module)
    rows = [("type", "leaves", "bytes"), ("image/png", 1000, 300_000), ("text/plain", 10_000, 9000 * 11 + 1000 * 10), ("x/y", 1000, 0),
            ("all", 12_000, 409_000)]
    wanted = "".join(f"{media:30} {leaves:>8} {size:>12}\n" for media, leaves, size in rows)
    cases.expect("survey.py", (0, wanted), (run.returncode, run.stdout.decode()))
    said = run.stderr.decode().split("\r")
    cases.expect("survey.py says how far it is", ("500 messages, 5 %", "10000 messages, 100 %\n", 22), (said[1], said[-1], len(said)))


def readme(cases, library, module):
    """The lines that python/README.md shows, one after another. The mailbox is that of examples/, with a program as its second message."""
    folder = os.path.join(module, "readme")
    os.mkdir(folder)
    with open(os.path.join(TOP, "examples", "album.eml"), "rb") as file:
        album = file.read()
    box = [b"From a\nA: b\n\n1\n\n", b"From b\nContent-Type: application/x-msdownload\n\n2\n\n", b"From c\n" + album]
    for name, text in [("album.eml", album), ("inbox.mbox", b"".join(box))]:
        with open(os.path.join(folder, name), "wb") as file:
            file.write(text)
    with open(os.path.join(TOP, "python", "README.md"), encoding="utf-8") as file:
        blocks = re.findall(r"^```python\n(.*?)^```", file.read(), re.M | re.S)
    shown = "".join(f"{path} {kind} {media} {'dot.gif' if path == (1, 2) else None}\n" for path, kind, media, *_ in ALBUM)
    lines = "\n".join([*blocks, "with mimetool.Session(message) as s: print(*[one.type for one in s.sections()][1:4])"])
    shown += "text/plain image/gif message/rfc822\n"
    found = child([sys.executable, "-c", lines], folder, MIMETOOL_LIBRARY=library, PYTHONPATH=module)
    cases.expect("the lines of the README", (0, shown, 3), (found.returncode, found.stdout, len(blocks)))
    with open(os.path.join(folder, "kept.mbox"), "rb") as file:
        kept = file.read()
    wanted = [box[0].replace(b"A: b\n", b"A: b\nX-Number: 1\n"), box[2].replace(b"\n\n", b"\nX-Number: 3\n\n", 1)]
    cases.expect("the mailbox that they filter", b"".join(wanted), kept)


def libraries(cases, library, folder):
    """Where the library is looked for, the first lines of the README, and the examples."""
    bare = os.path.join(folder, "bare")
    shutil.copytree(os.path.join(TOP, "python", "mimetool"), os.path.join(bare, "mimetool"),
                    ignore=shutil.ignore_patterns("*.so", "__pycache__"))
    asks = [sys.executable, "-c", "import mimetool; print(mimetool.library_version())"]
    for shows, named, status, said in [("the variable", library, 0, cases.module.library_version()),
                                       ("no file", "/nowhere/x.so", 1, "ImportError: the library of mimetool can't be loaded"),
                                       ("another library", "libc.so.6", 1, "ImportError: libc.so.6 is no library of mimetool")]:
        run = child(asks, bare, MIMETOOL_LIBRARY=named)
        cases.expect(f"the library: {shows}", (status, True), (run.returncode, said in run.stdout))
    readme(cases, library, bare)
    filter_example(cases, library, bare)
    survey_example(cases, library, bare)


def wheel(folder, library):
    """Makes a wheel, with a library in it where one is given. Its path, or why there is none."""
    source = os.path.join(folder, "source")
    shutil.copytree(os.path.join(TOP, "python"), source, ignore=shutil.ignore_patterns("*.so", "__pycache__", "build", "*.egg-info"))
    if library:
        shutil.copy(library, os.path.join(source, "mimetool", "libmimetool.so"))
    run = child([*PIP, "wheel", "--no-build-isolation", "--no-index", "--no-deps", "-w", folder, source], folder)
    made = [os.path.join(folder, name) for name in os.listdir(folder) if name.endswith(".whl")]
    return made[0] if made else None, run.stdout


def wheels(cases, library, folder):
    """A wheel with the library in it, and one without; each is installed into a fresh environment."""
    for shows, held, tag in [("with the library", library, "linux"), ("without it", None, "any")]:
        place = os.path.join(folder, "wheel-" + tag)
        os.mkdir(place)
        path, said = wheel(place, held)
        if path is None and any(words in said for words in LACKS):
            print(f"left out: the wheel {shows} (this Python has no pip, or no setuptools that makes wheels)")
            continue
        cases.expect(f"a wheel {shows}", True, path is not None and path.endswith(".whl") and tag in path.split("-")[-1] or said)
        run = child([sys.executable, "-m", "venv", "--without-pip", os.path.join(place, "fresh")], place)
        if run.returncode or path is None:
            print(f"left out: an environment for the wheel {shows} ({run.stdout.strip()[-100:]})")
            continue
        fresh = os.path.join(place, "fresh", "bin", "python")
        run = child([*PIP, "--python", fresh, "install", "--no-index", "--no-deps", path], place)
        cases.expect(f"it is installed {shows}", (0, ""), (run.returncode, run.stdout if run.returncode else ""))
        run = child([fresh, "-c", ASKS], place, **({} if held else {"MIMETOOL_LIBRARY": library}))
        cases.expect(f"it works {shows}", (0, "b'A: b\\nC: d\\n\\n'\n"), (run.returncode, run.stdout))
