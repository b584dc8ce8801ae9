"""Worked cases of the Python module, for checks/python. The expected values are worked out by hand from docs/FORMATS.md."""

ROOT = (1,)
NOWHERE = [(), (0,), (2,), (1, 1), (1, 4294967295), (1, 4294967296), (2 ** 70,), (1,) * 101, (1,) * 102, (1,) * 5000]

PLAIN = b"A: b\nC: d\n\nx\n"
CRLF = b"A: b\r\n\r\nx\r\n"
TYPE = b"Content-Type: multipart/mixed; boundary=b\n\n"
PARTS = TYPE + b"--b\n\none\n--b\nX: y\n\ntwo\n--b--\n"
COLON = b'Content-Type: multipart/mixed; boundary="a:b"\n\n--a:b\n\nx\n--a:b--\n'
INNER = TYPE + b"--b\n" + COLON + b"--b--\n"

# What it shows, the message, the edit and what it takes; then the edited message, or the reason and its number.
EDITS = [
    ("a field goes after the others", PLAIN, "add_field", (ROOT, "E: f\n"), b"A: b\nC: d\nE: f\n\nx\n"),
    ("or before them", PLAIN, "add_field", (ROOT, b"E: f\n", True), b"E: f\nA: b\nC: d\n\nx\n"),
    ("a field without an ending gets LF", PLAIN, "add_field", (ROOT, "E: f"), b"A: b\nC: d\nE: f\n\nx\n"),
    ("or CR LF", CRLF, "add_field", (ROOT, "E: f"), b"A: b\r\nE: f\r\n\r\nx\r\n"),
    ("a field with an ending keeps it", CRLF, "add_field", (ROOT, "E: f\n"), b"A: b\r\nE: f\n\r\nx\r\n"),
    ("the first line decides", b"A: b\nC: d\r\n\r\n", "add_field", (ROOT, "E: f"), b"A: b\nC: d\r\nE: f\n\r\n"),
    ("of an empty message LF", b"", "add_field", (ROOT, "E: f"), b"E: f\n"),
    ("of an open line LF", b"A: b", "add_field", (ROOT, "E: f", True), b"E: f\nA: b"),
    ("a CR alone is no ending", b"A: b\rc\n\n", "add_field", (ROOT, "E: f"), b"A: b\rc\nE: f\n\n"),
    ("a field of a part", PARTS, "add_field", ((1, 1), "E: f"), TYPE + b"--b\nE: f\n\none\n--b\nX: y\n\ntwo\n--b--\n"),
    ("a path may be a list", PARTS, "add_field", ([1, 1], "E: f"), TYPE + b"--b\nE: f\n\none\n--b\nX: y\n\ntwo\n--b--\n"),
    ("a folded field", PLAIN, "add_field", (ROOT, "E: f\n g\n"), b"A: b\nC: d\nE: f\n g\n\nx\n"),
    ("NUL and 8-bit bytes", PLAIN, "add_field", (ROOT, b"E: \0\xff"), b"A: b\nC: d\nE: \0\xff\n\nx\n"),
    ("a str is UTF-8", PLAIN, "add_field", (ROOT, "E: \u00fc"), b"A: b\nC: d\nE: \xc3\xbc\n\nx\n"),
    ("no colon", PLAIN, "add_field", (ROOT, "no"), ("BadField", 0)),
    ("nothing", PLAIN, "add_field", (ROOT, ""), ("BadField", 0)),
    ("two fields", PLAIN, "add_field", (ROOT, "E: f\nG: h\n"), ("BadField", 0)),
    ("after an open line", b"A: b", "add_field", (ROOT, "E: f"), ("OpenLine", 0)),
    ("an open line before the separator", PLAIN, "add_field", (ROOT, "E: f\n g"), ("OpenLine", 0)),
    ("a delimiter of the root", COLON, "add_field", ((1, 1), "--a:b"), ("HoldsBoundary", 1)),
    ("a delimiter of 1.1", INNER, "add_field", ((1, 1, 1), "--a:b"), ("HoldsBoundary", 2)),
    ("a field goes, in any case", PLAIN, "remove_field", (ROOT, "a"), b"C: d\n\nx\n"),
    ("with all its lines", b"A: b\n c\nD: e\n\n", "remove_field", (ROOT, "A"), b"D: e\n\n"),
    ("the second of the name", b"A: 1\na: 2\n\n", "remove_field", (ROOT, "A", 2), b"A: 1\n\n"),
    ("there is no third", b"A: 1\na: 2\n\n", "remove_field", (ROOT, "A", 3), ("NoSuchField", 0)),
    ("0 picks no field", PLAIN, "remove_field", (ROOT, "A", 0), ("NoSuchField", 0)),
    ("a large number picks none", PLAIN, "remove_field", (ROOT, "A", 2 ** 32 + 1), ("NoSuchField", 0)),
    ("a name ends where it ends", PLAIN, "remove_field", (ROOT, "A\0"), ("NoSuchField", 0)),
    ("an empty name", PLAIN, "remove_field", (ROOT, b""), ("NoSuchField", 0)),
    ("what would be the envelope", b"A: b\nFrom me\n", "remove_field", (ROOT, "A"), ("Recut", 0)),
    ("the bytes after a name stay", b"A \t: b\n c\n\nx\n", "rename_field", (ROOT, "a", "Long"), b"Long \t: b\n c\n\nx\n"),
    ("the second is renamed", b"A: 1\nA: 2\n\n", "rename_field", (ROOT, "A", "B", 2), b"A: 1\nB: 2\n\n"),
    ("a name without bytes", PLAIN, "rename_field", (ROOT, "A", ""), ("BadName", 0)),
    ("a name with a space", PLAIN, "rename_field", (ROOT, "A", "a b"), ("BadName", 0)),
    ("a name with NUL", PLAIN, "rename_field", (ROOT, "A", "a\0b"), ("BadName", 0)),
    ("a name beyond ASCII", PLAIN, "rename_field", (ROOT, "A", "\u00fc"), ("BadName", 0)),
    ("no field to rename", PLAIN, "rename_field", (ROOT, "B", "D"), ("NoSuchField", 0)),
    ("a field is replaced", PLAIN, "set_field", (ROOT, "c", "E: f"), b"A: b\nE: f\n\nx\n"),
    ("the second is replaced", b"A: 1\r\nA: 2\r\n\r\n", "set_field", (ROOT, "A", "E: f", 2), b"A: 1\r\nE: f\r\n\r\n"),
    ("no field to replace", PLAIN, "set_field", (ROOT, "B", "E: f"), ("NoSuchField", 0)),
    ("a leaf stays a leaf", PLAIN, "set_field", (ROOT, "A", "Content-Type: multipart/mixed; boundary=b"), ("Recut", 0)),
    ("a body", PLAIN, "set_body", (ROOT, "y\nz"), b"A: b\nC: d\n\ny\nz"),
    ("a body of no bytes", PLAIN, "set_body", (ROOT, b""), b"A: b\nC: d\n\n"),
    ("a body of any bytes", PLAIN, "set_body", (ROOT, b"\0\xff\r\n\r"), b"A: b\nC: d\n\n\0\xff\r\n\r"),
    ("a body gets a separator", b"A: b\n", "set_body", (ROOT, "y\n"), b"A: b\n\ny\n"),
    ("a body of a part", PARTS, "set_body", ((1, 2), "z\n"), TYPE + b"--b\n\none\n--b\nX: y\n\nz\n--b--\n"),
    ("an open body before a delimiter", PARTS, "set_body", ((1, 2), "z"), ("OpenLine", 0)),
    ("a body with a delimiter", PARTS, "set_body", ((1, 1), "a\n--b \n"), ("HoldsBoundary", 1)),
    ("a body of a multipart", PARTS, "set_body", (ROOT, "z\n"), ("NotLeaf", 0)),
    ("a section", PLAIN, "set_section", (ROOT, "Z: z\n\nq\n"), b"Z: z\n\nq\n"),
    ("a part", PARTS, "set_section", ((1, 1), "Z: z\n\nq\n"), TYPE + b"--b\nZ: z\n\nq\n--b\nX: y\n\ntwo\n--b--\n"),
    ("a section with a delimiter", PARTS, "set_section", ((1, 1), "Z: z\n\n--b--\n"), ("HoldsBoundary", 1)),
    ("a part before the others", PARTS, "insert_part", (ROOT, 0, "N: o\n\nnew\n"),
     TYPE + b"--b\nN: o\n\nnew\n--b\n\none\n--b\nX: y\n\ntwo\n--b--\n"),
    ("a part after them", PARTS, "insert_part", (ROOT, 2, "\nnew\n"), TYPE + b"--b\n\none\n--b\nX: y\n\ntwo\n--b\n\nnew\n--b--\n"),
    ("a part after three of two", PARTS, "insert_part", (ROOT, 3, "\nnew\n"), ("BadPlace", 0)),
    ("a part after very many", PARTS, "insert_part", (ROOT, 2 ** 40, "\nnew\n"), ("BadPlace", 0)),
    ("a part of a leaf", PLAIN, "insert_part", (ROOT, 0, "\nnew\n"), ("NotMultipart", 0)),
    ("a part goes", PARTS, "remove_part", ((1, 1),), TYPE + b"--b\nX: y\n\ntwo\n--b--\n"),
    ("the message doesn't go", PARTS, "remove_part", (ROOT,), ("NotPart", 0)),
    ("a leaf becomes a part", b"A: b\nContent-X: d\n\nx\n", "wrap", (ROOT, "mixed", "q"),
     b'A: b\nMIME-Version: 1.0\nContent-Type: multipart/mixed; boundary="q"\n\n--q\nContent-X: d\n\nx\n\n--q--\n'),
    ("a part becomes one of a part", PARTS, "wrap", ((1, 2), "alternative", "q"),
     TYPE + b'--b\n\none\n--b\nX: y\nContent-Type: multipart/alternative; boundary="q"\n\n--q\n\ntwo\n--q--\n--b--\n'),
    ("a boundary of no bytes", PLAIN, "wrap", (ROOT, "mixed", ""), ("BadBoundary", 0)),
    ("a boundary that ends in a space", PLAIN, "wrap", (ROOT, "mixed", "q "), ("BadBoundary", 0)),
    ("a boundary with NUL", PLAIN, "wrap", (ROOT, "mixed", "q\0"), ("BadBoundary", 0)),
    ("a boundary of 71 bytes", PLAIN, "wrap", (ROOT, "mixed", "q" * 71), ("BadBoundary", 0)),
    ("the boundary comes first", PLAIN, "wrap", (ROOT, "a b", ""), ("BadBoundary", 0)),
    ("a subtype of two words", PLAIN, "wrap", (ROOT, "a b", "q"), ("BadSubtype", 0)),
    ("a subtype with NUL", PLAIN, "wrap", (ROOT, "a\0", "q"), ("BadSubtype", 0)),
    ("a body that holds the boundary", b"A: b\n\n--q\n", "wrap", (ROOT, "mixed", "q"), ("HoldsBoundary", 1)),
]

# What it shows, the fields and the body of a message, and its content.
CONTENTS = [
    ("a plain body", b"A: b\n\nx\n", ROOT, b"x\n"),
    ("no body", b"", ROOT, b""),
    ("base64", b"Content-Transfer-Encoding: base64\n\naGk=\n", ROOT, b"hi"),
    ("quoted-printable", b"Content-Transfer-Encoding: quoted-printable\n\na=3Db=00\n", ROOT, b"a=b\0\n"),
    ("a part loses the ending of its delimiter", PARTS, (1, 1), b"one"),
    ("a multipart as it stands", PARTS, ROOT, b"--b\n\none\n--b\nX: y\n\ntwo\n--b--\n"),
    ("a base64 character is left over", b"Content-Transfer-Encoding: base64\n\naGkaa\n", ROOT, "BadBase64"),
    ("an encoding that nobody knows", b"Content-Transfer-Encoding: x-uuencode\n\nx\n", ROOT, "UnknownEncoding"),
]

NAMES = [
    ("no name", PLAIN, None),
    ("a plain name", b"Content-Disposition: attachment; filename=\"a/b c.txt\"\n\n", "a/b c.txt"),
    ("a name of the type", b"Content-Type: image/gif; name=dot.gif\n\n", "dot.gif"),
    ("a name with a charset", b"Content-Disposition: x; filename*=iso-8859-1'de'%FC%2F..\n\n", "\u00fc/.."),
    ("a name with NUL", b"Content-Disposition: x; filename*=utf-8''a%00b\n\n", "a\0b"),
    ("an encoded word", b"Content-Disposition: x; filename=\"=?utf-8?q?=E2=82=AC?=\"\n\n", "\u20ac"),
    ("a charset of one byte a character", b"Content-Disposition: x; filename*=koi8-r''%f0\n\n", "\u041f"),
    ("a charset that nobody knows", b"Content-Disposition: x; filename*=x-unknown''%f0\n\n", None),
]

# The listing of examples/album.eml, as docs/FORMATS.md has it.
ALBUM = [
    ((1,), "multi", "multipart/mixed", "identity", 0, 120, 529, 4, 20),
    ((1, 1), "leaf", "text/plain", "quoted-printable", 159, 244, 267, 2, 2),
    ((1, 2), "leaf", "image/gif", "base64", 278, 353, 402, 2, 1),
    ((1, 3), "message", "message/rfc822", "identity", 413, 443, 516, 1, 4),
    ((1, 3, 1), "leaf", "text/plain", "identity", 443, 498, 516, 2, 1),
]
