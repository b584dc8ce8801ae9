"""Messages that the library for C builds, for checks/library. The expected values are worked out by hand from docs/FORMATS.md."""

LINES = b"Content-Transfer-Encoding: quoted-printable\n\n"
HEAD = b'MIME-Version: 1.0\nContent-Type: multipart/mixed; boundary="b"\n\n'
TEXT = b"--b\nContent-Type: text/plain\n" + LINES
PNG = b'--b\nContent-Type: image/png; name="a.png"\nContent-Disposition: attachment; filename="a.png"\nContent-Transfer-Encoding: base64\n\n'
FORWARD = b"--b\nContent-Type: message/rfc822\nContent-Disposition: attachment\n"

# What it shows, the words of `callbacks build`, the files, the message, and the contents of its sections.
BUILT = [
    ("nothing but a boundary", ["boundary=b"], {}, HEAD + b"--b--\n", {}),
    ("a field and a text", ["boundary=b", "field=s", "part=t:qp:text/plain"], {"s": b"Subject: hi\n", "t": b"Hello\n"},
     b"Subject: hi\n" + HEAD + TEXT + b"Hello\n\n--b--\n", {"1.1": b"Hello\n"}),
    ("an open field gets an ending", ["boundary=b", "field=s", "field=u"], {"s": b"Subject: hi\n there", "u": b"X: y\r\n"},
     b"Subject: hi\n there\nX: y\r\n" + HEAD + b"--b--\n", {}),
    ("lines end with CR LF", ["boundary=b", "field=s", "part=t:qp:text/plain", "crlf"], {"s": b"Subject: hi", "t": b"a\r\nb"},
     (b"Subject: hi\n" + HEAD + TEXT + b"a\nb\n--b--\n").replace(b"\n", b"\r\n"), {"1.1": b"a\r\nb"}),
    ("an LF beside CR LF is encoded", ["boundary=b", "part=t:qp:text/plain", "crlf"], {"t": b"a\nb"},
     (HEAD + TEXT + b"a=0Ab\n--b--\n").replace(b"\n", b"\r\n"), {"1.1": b"a\nb"}),
    ("a file in base64", ["boundary=b", "part=p:base64:image/png:a.png"], {"p": b"\x89PNG"},
     HEAD + PNG + b"iVBORw==\n--b--\n", {"1.1": b"\x89PNG"}),
    ("a text in base64", ["boundary=b", "part=p:base64:text/plain"], {"p": b"hi"},
     HEAD + b"--b\nContent-Type: text/plain\nContent-Transfer-Encoding: base64\n\naGk=\n--b--\n", {"1.1": b"hi"}),
    ("an image in quoted-printable", ["boundary=b", "part=p:qp:image/x"], {"p": b"a=\xff\n"},
     HEAD + b"--b\nContent-Type: image/x\n" + LINES + b"a=3D=FF\n\n--b--\n", {"1.1": b"a=\xff\n"}),
    ("texts say a charset, files don't", ["boundary=b", "charset=utf-8", "part=t:qp:Text/html", "part=p:base64:image/png:a.png"],
     {"t": b"\xc3\xa9\n", "p": b"hi"},
     HEAD + b"--b\nContent-Type: Text/html; charset=utf-8\n" + LINES + b"=C3=A9\n\n" + PNG + b"aGk=\n--b--\n", {"1.1": b"\xc3\xa9\n"}),
    ("another subtype", ["boundary=a b", "subtype=alternative", "part=t:qp:text/plain"], {"t": b"x"},
     b'MIME-Version: 1.0\nContent-Type: multipart/alternative; boundary="a b"\n\n--a b\nContent-Type: text/plain\n' + LINES + b"x\n--a b--\n",
     {"1.1": b"x"}),
    ("a name in UTF-8", ["boundary=b", "part=p:base64:image/png:\u00fc.png"], {"p": b"hi"},
     HEAD + b'--b\nContent-Type: image/png; name="__.png"\n'
     b"Content-Disposition: attachment; filename=\"__.png\"; filename*=utf-8''%C3%BC.png\nContent-Transfer-Encoding: base64\n\naGk=\n--b--\n",
     {"1.1": b"hi"}),
    ("a message is attached", ["boundary=b", "message=m:attached"], {"m": b"A: b\r\n\r\nx"},
     HEAD + FORWARD + b"\nA: b\r\n\r\nx\n--b--\n", {"1.1": b"A: b\r\n\r\nx", "1.1.1": b"x"}),
    ("its From-line isn't sent", ["boundary=b", "message=m:attached"], {"m": b"From a\nA: b\n\nx\n"},
     HEAD + FORWARD + b"\nA: b\n\nx\n\n--b--\n", {"1.1": b"A: b\n\nx\n"}),
    ("a message is shown", ["boundary=b", "message=m:shown"], {"m": b"A: b\n\nx\n"},
     HEAD + b"--b\nContent-Type: message/rfc822\n\nA: b\n\nx\n\n--b--\n", {"1.1.1": b"x\n"}),
    ("bytes of 128 and more are told of", ["boundary=b", "message=m:attached"], {"m": b"A: \xff\n\n"},
     HEAD[:-1] + b"Content-Transfer-Encoding: 8bit\n\n" + FORWARD + b"Content-Transfer-Encoding: 8bit\n\nA: \xff\n\n\n--b--\n",
     {"1.1": b"A: \xff\n\n"}),
    ("a CR at the end stays", ["boundary=b", "message=m:attached"], {"m": b"A: b\n\nx\r"},
     HEAD + FORWARD + b"\nA: b\n\nx\r\r\n--b--\n", {"1.1": b"A: b\n\nx\r"}),
    ("all of it", ["boundary=b", "field=s", "field=u", "part=t:qp:text/plain", "part=p:base64:image/png:a.png", "message=m:attached",
                   "message=n:shown"],
     {"s": b"Subject: hi\n", "u": b"To: b@example.org", "t": b"Hello\n", "p": b"hi", "m": b"A: b\n\nx\n", "n": b"C: d\n\ny\n"},
     b"Subject: hi\nTo: b@example.org\n" + HEAD + TEXT + b"Hello\n\n" + PNG + b"aGk=\n" + FORWARD + b"\nA: b\n\nx\n\n"
     b"--b\nContent-Type: message/rfc822\n\nC: d\n\ny\n\n--b--\n",
     {"1.1": b"Hello\n", "1.2": b"hi", "1.3": b"A: b\n\nx\n", "1.4.1": b"y\n"}),
]

# What it shows, the words, the files, and what is said.
REFUSED = [
    ("no field", ["boundary=b", "field=s", "field=t"], {"s": b"Subject: hi\n", "t": b"hi\n"}, b"build: BadField 1\n"),
    ("two fields in one", ["boundary=b", "field=s"], {"s": b"A: b\nC: d\n"}, b"build: BadField 0\n"),
    ("a field that is made", ["boundary=b", "field=s"], {"s": b"mime-version: 1.0\n"}, b"build: BadField 0\n"),
    ("a field of the content", ["boundary=b", "field=s"], {"s": b"CONTENT-x: y"}, b"build: BadField 0\n"),
    ("no media type", ["boundary=b", "part=t:qp:text/plain", "part=t:qp:text"], {"t": b""}, b"build: BadType 1\n"),
    ("a part that is a multipart", ["boundary=b", "part=t:qp:Multipart/mixed"], {"t": b""}, b"build: BadType 0\n"),
    ("a part that is a message", ["boundary=b", "part=t:qp:message/rfc822"], {"t": b""}, b"build: BadType 0\n"),
    ("a type of 101 bytes", ["boundary=b", "part=t:qp:text/" + "x" * 96], {"t": b""}, b"build: BadType 0\n"),
    ("an empty name", ["boundary=b", "part=t:qp:text/plain:"], {"t": b""}, b"build: BadName 0\n"),
    ("a quote in a name", ["boundary=b", "part=t:qp:text/plain", "part=t:qp:text/plain:a\"b"], {"t": b""}, b"build: BadName 1\n"),
    ("a name of 101 bytes", ["boundary=b", "part=t:qp:text/plain:" + "n" * 101], {"t": b""}, b"build: BadName 0\n"),
    ("no subtype", ["boundary=b", "subtype="], {}, b"build: BadSubtype 0\n"),
    ("a subtype of two words", ["boundary=b", "subtype=a b"], {}, b"build: BadSubtype 0\n"),
    ("no charset", ["boundary=b", "charset="], {}, b"build: BadCharset 0\n"),
    ("a charset of two words", ["boundary=b", "charset=a b"], {}, b"build: BadCharset 0\n"),
    ("an empty boundary", ["boundary="], {}, b"build: BadBoundary 0\n"),
    ("a boundary that ends in a space", ["boundary=b "], {}, b"build: BadBoundary 0\n"),
    ("a line begins as a delimiter", ["boundary=b", "message=m:shown", "message=n:shown"], {"m": b"A: b\n\n", "n": b"A: b\n\n--bb\n"},
     b"build: HoldsBoundary 1\n"),
    ("the field comes first", ["boundary=", "part=t:qp:x:", "field=t", "subtype="], {"t": b""}, b"build: BadField 0\n"),
    ("then the type", ["boundary=", "part=t:qp:x:", "subtype="], {"t": b""}, b"build: BadType 0\n"),
    ("then the name", ["boundary=", "part=t:qp:x/y:", "subtype="], {"t": b""}, b"build: BadName 0\n"),
    ("then the subtype", ["boundary=", "charset=", "subtype="], {}, b"build: BadSubtype 0\n"),
    ("then the charset", ["boundary=", "charset="], {}, b"build: BadCharset 0\n"),
]
