"""Messages, and what `sections --json` says of each section beside what the plain listing says."""

ALBUM = """\
{"path":"1","kind":"multi","type":"multipart/mixed","encoding":"identity","start":0,"body":120,"end":529,"field_lines":4,"body_lines":20,"boundary":"cut here"}
{"path":"1.1","kind":"leaf","type":"text/plain","encoding":"quoted-printable","start":159,"body":244,"end":267,"field_lines":2,"body_lines":2,"charset":"utf-8","stored_as":"part-1.1","size":20}
{"path":"1.2","kind":"leaf","type":"image/gif","encoding":"base64","start":278,"body":353,"end":402,"field_lines":2,"body_lines":1,"filename":"dot.gif","raw_filename":"dot.gif","stored_as":"dot.gif","size":34}
{"path":"1.3","kind":"message","type":"message/rfc822","encoding":"identity","start":413,"body":443,"end":516,"field_lines":1,"body_lines":4}
{"path":"1.3.1","kind":"leaf","type":"text/plain","encoding":"identity","start":443,"body":498,"end":516,"field_lines":2,"body_lines":1,"stored_as":"part-1.3.1","size":17}
"""


def leaf(size=1, **said):
    """A leaf with a content of one byte, unless its size is said; the name as it is written is `filename` unless it is said."""
    said = {**said, "size": size}
    if "filename" in said:
        said = {"raw_filename": said["filename"], **said}
    return {"kind": "leaf", **{key: value for key, value in said.items() if value is not None}}


def of(fields, **said):
    """A message of one leaf with these fields, and a content of two bytes."""
    return fields + b"\n\nx\n", [leaf(**{"size": 2, **said})]


def disposed(value, filename, stored_as):
    """A leaf with a Content-Disposition, whose disposition is in lower case and has no blanks or comments around it, and whose file
    name is its only parameter."""
    return of(b"Content-Disposition: " + value, disposition=value.split(b";")[0].decode(), filename=filename, stored_as=stored_as,
              disposition_parameters={"filename": filename})


def parameters(value, **said):
    """A leaf with a Content-Disposition `inline` with these parameters."""
    name = said.get("filename")
    return of(b"Content-Disposition: inline" + value, disposition="inline", filename=name, raw_filename=name, stored_as=name or PART,
              disposition_parameters=said or None)


def identified(value, content_id):
    """A leaf with a Content-ID."""
    return of(b"Content-ID:" + value, stored_as=PART, content_id=content_id)


def multi(boundary, *parts, fields=b"Content-Type: multipart/mixed; boundary=%s"):
    """A multipart of these parts, each with its fields."""
    head = fields % boundary if b"%s" in fields else fields
    return head + b"\n\n" + b"".join(b"--" + boundary + b"\n" + part + b"\n" for part in parts) + b"--" + boundary + b"--\n"


PART = "part-1"
GIF = b"Content-Type: image/gif; name=a.gif\n\nx"
INNER = multi(b"in", b"\none", GIF)
DIGEST = multi(b"d", b"\nSubject: s\n\none", b"Content-Type: text/plain; charset=koi8-r\n\nx",
               fields=b"Content-Type: multipart/digest; boundary=%s")

# What a row shows, its message, and what is said of each section in turn.
ROWS = [
    ("an empty message", b"", [leaf(type="text/plain", stored_as=PART, size=0)]),
    ("no fields", b"\nx\n", [leaf(type="text/plain", stored_as=PART, size=2)]),
    ("no body", b"A: b\n", [leaf(stored_as=PART, size=0)]),
    ("an envelope", b"From a\nA: b\n\nx\n", [leaf(stored_as=PART, size=2)]),
    ("CR LF", b"Content-Type: image/gif;\r\n name=\"a.gif\"\r\n\r\nx\r\n", [leaf(type="image/gif", filename="a.gif", stored_as="a.gif", size=3)]),
    ("bytes alone", b"\x00\xff\n", [leaf(stored_as=PART, size=3)]),
    ("a charset", *of(b"Content-Type: text/plain; charset=UTF-8", charset="UTF-8", stored_as=PART)),
    ("a charset in quotes", *of(b'Content-Type: text/plain; charset="iso-8859-1"', charset="iso-8859-1", stored_as=PART)),
    ("a charset with a comment", *of(b"Content-Type: text/plain; charset=us-ascii (plain)", charset="us-ascii", stored_as=PART)),
    ("a charset that is empty", *of(b'Content-Type: text/plain; charset=""', charset="", stored_as=PART)),
    ("a charset in capitals, of two", *of(b"Content-Type: text/html; CHARSET=a; charset=b", type="text/html", charset="a", stored_as=PART)),
    ("a charset without a type", *of(b"Content-Type: x; charset=a", type="text/plain", charset="a", stored_as=PART)),
    ("a boundary of a leaf", *of(b"Content-Type: text/plain; boundary=b", type="text/plain", stored_as=PART)),
    ("a multipart without a boundary", *of(b"Content-Type: multipart/mixed", type="multipart/mixed", stored_as=PART)),
    ("a multipart with an empty boundary", *of(b'Content-Type: multipart/mixed; boundary=""', type="multipart/mixed", stored_as=PART)),
    ("a name", *of(b"Content-Type: image/gif; name=a.gif", filename="a.gif", stored_as="a.gif")),
    ("a file name", *disposed(b"attachment; filename=a.gif", "a.gif", "a.gif")),
    ("a file name before a name", *of(b"Content-Type: image/gif; name=a.gif\nContent-Disposition: inline; filename=b.gif",
                                      disposition="inline", filename="b.gif", stored_as="b.gif", disposition_parameters={"filename": "b.gif"})),
    ("a disposition without a file name", *of(b"Content-Disposition: inline\nContent-Type: image/gif; name=a.gif", disposition="inline", filename="a.gif", stored_as="a.gif")),
    ("a file name that is empty", *of(b'Content-Type: image/gif; name=a\nContent-Disposition: inline; filename=""', disposition="inline", filename="", stored_as=PART, disposition_parameters={"filename": ""})),
    ("a file name without a disposition", *of(b"Content-Disposition: filename=a", stored_as=PART)),
    ("a name of a disposition", *of(b"Content-Disposition: inline; name=a", disposition="inline", stored_as=PART, disposition_parameters={"name": "a"})),
    ("blanks in a file name", *disposed(b'inline; filename="a b.gif"', "a b.gif", "a_b.gif")),
    ("a folded file name", *disposed(b'inline;\n filename="a\n b.gif"', "a b.gif", "a_b.gif")),
    ("quotes in a file name", *disposed(rb'inline; filename="a \"b\".gif"', 'a "b".gif', "a__b_.gif")),
    ("backslashes in a file name", *disposed(rb'inline; filename="c:\\d\\e.gif"', r"c:\d\e.gif", "e.gif")),
    ("a backslash outside quotes", *disposed(rb"inline; filename=c:\d.gif", r"c:\d.gif", "d.gif")),
    ("slashes in a file name", *disposed(b"inline; filename=../../etc/passwd", "../../etc/passwd", "passwd")),
    ("a slash at the end", *disposed(b"inline; filename=a/", "a/", PART)),
    ("a file name that begins with a dot", *disposed(b"inline; filename=.profile", ".profile", "_profile")),
    ("a file name that begins with a hyphen", *disposed(b"inline; filename=-rf", "-rf", "_rf")),
    ("control characters", *disposed(b'inline; filename="a\x01\x1f\x7f\x08\x0cb"', "a\x01\x1f\x7f\x08\x0cb", "a_____b")),
    ("a tab and a CR", *disposed(b'inline; filename="a\tb\rc"', "a\tb\rc", "a_b_c")),
    ("a zero byte", *disposed(b'inline; filename="a\x00b"', "a\x00b", "a_b")),
    ("a file name in UTF-8", *disposed("inline; filename=\"\u00e4\u20ac\U0001f600.gif\"".encode(), "\u00e4\u20ac\U0001f600.gif", "_________.gif")),
    ("a byte that isn't UTF-8", *disposed(b'inline; filename="caf\xe9.gif"', "caf\ufffd.gif", "caf_.gif")),
    ("bytes that can't be UTF-8", *disposed(b'inline; filename="\xff\xfe"', "\ufffd\ufffd", "__")),
    ("a charset that isn't UTF-8", *of(b"Content-Type: text/plain; charset=\xff", charset="\ufffd", stored_as=PART)),
    ("an encoded word", *of(b'Content-Disposition: inline; filename="=?utf-8?q?a=C3=A4.gif?="', disposition="inline", filename="a\u00e4.gif",
                            raw_filename="=?utf-8?q?a=C3=A4.gif?=", stored_as="__utf-8_q_a_C3_A4.gif__", disposition_parameters={"filename": "a\u00e4.gif"})),
    ("an extended parameter", *of(b"Content-Disposition: inline; filename*=utf-8''a%20b", disposition="inline", filename="a b", raw_filename=None, stored_as=PART, disposition_parameters={"filename": "a b"})),
    ("a long file name", *disposed(b"inline; filename=" + b"n" * 300, "n" * 300, "n" * 100)),
    ("an unclosed file name", *disposed(b'inline; filename="a; b', "a; b", "a__b")),
    ("a comment in a file name", *disposed(b"inline; filename=a(b)c", "ac", "ac")),
    ("characters that HTML has", *disposed(b'inline; filename="<a>&\'/b"', "<a>&'/b", "b")),
    ("a multipart in a multipart", multi(b"out", INNER, b"\nx"), [
        {"kind": "multi", "boundary": "out"}, {"kind": "multi", "boundary": "in"}, leaf(stored_as="part-1.1.1", size=3),
        leaf(type="image/gif", filename="a.gif", stored_as="a.gif"), leaf(stored_as="part-1.2")]),
    ("names that are the same", multi(b"b", GIF, GIF, b"Content-Type: image/gif; name=a.gif.1\n\nx", GIF, b"Content-Type: text/plain; name=part-1.6\n\nx", b"\nx"), [
        {"boundary": "b"}, leaf(filename="a.gif", stored_as="a.gif"), leaf(filename="a.gif", stored_as="a.gif.1"),
        leaf(filename="a.gif.1", stored_as="a.gif.1.1"), leaf(filename="a.gif", stored_as="a.gif.2"),
        leaf(filename="part-1.6", stored_as="part-1.6"), leaf(stored_as="part-1.6.1")]),
    ("names of other case", multi(b"b", GIF, GIF.replace(b"a.gif", b"A.gif")), [
        {"boundary": "b"}, leaf(filename="a.gif", stored_as="a.gif"), leaf(filename="A.gif", stored_as="A.gif")]),
    ("a message in a message", b"Content-Type: message/rfc822; name=m\n\nContent-Type: message/rfc822\n\n" + GIF, [
        {"kind": "message", "filename": "m", "raw_filename": "m"}, {"kind": "message"}, leaf(filename="a.gif", stored_as="a.gif")]),
    ("a message in base64", *of(b"Content-Type: message/rfc822\nContent-Transfer-Encoding: base64", type="message/rfc822", encoding="base64", stored_as=PART, size=None)),
    ("an unknown encoding", *of(b"Content-Transfer-Encoding: x", encoding="other", stored_as=PART, size=None)),
    ("a disposition in capitals", *of(b"Content-Disposition: ATTachment", disposition="attachment", stored_as=PART)),
    ("a disposition between blanks", *of(b"Content-Disposition: \t inline \t; a=b", disposition="inline", stored_as=PART, disposition_parameters={"a": "b"})),
    ("a folded disposition", *of(b"Content-Disposition:\n inline\n ; a=b", disposition="inline", stored_as=PART, disposition_parameters={"a": "b"})),
    ("a disposition between comments", *of(b'Content-Disposition: (a; "(b)) inline (c); a=b', disposition="inline", stored_as=PART, disposition_parameters={"a": "b"})),
    ("a disposition with a comment in it", *of(b"Content-Disposition: in(a)line", disposition="inline", stored_as=PART)),
    ("a disposition of another name", *of(b"Content-Disposition: x-mine+a.b", disposition="x-mine+a.b", stored_as=PART)),
    ("a disposition in quotes", *of(b'Content-Disposition: "inline"', stored_as=PART)),
    ("a comment and a disposition in quotes", *of(b'Content-Disposition: (a)"inline"', stored_as=PART)),
    ("two words for a disposition", *of(b"Content-Disposition: inline attachment", stored_as=PART)),
    ("an empty disposition", *of(b"Content-Disposition: ; a=b", stored_as=PART, disposition_parameters={"a": "b"})),
    ("a field without a disposition", *of(b"Content-Disposition:", stored_as=PART)),
    ("a disposition with a byte that isn't ASCII", *of(b"Content-Disposition: inl\xefne", stored_as=PART)),
    ("a comment that isn't closed", *of(b"Content-Disposition: (inline", stored_as=PART)),
    ("two dispositions", *of(b"Content-Disposition: inline\nContent-Disposition: attachment", disposition="inline", stored_as=PART)),
    ("a disposition of a multipart", multi(b"b", b"\nx", fields=b"Content-Disposition: inline\nContent-Type: multipart/mixed; boundary=b"), [
        {"kind": "multi", "boundary": "b", "disposition": "inline"}, leaf(stored_as="part-1.1")]),
    ("parameters in their order", *parameters(b"; size=10; FileName=a.gif; creation-date=\"Wed, 12 Feb 1997 16:29:51 -0500\"",
                                              size="10", filename="a.gif", **{"creation-date": "Wed, 12 Feb 1997 16:29:51 -0500"})),
    ("a parameter given again", *parameters(b"; a=1; b=2; A=3", a="1", b="2")),
    ("a parameter with a charset", *parameters(b"; a*=iso-8859-1'en'%A3%20rates; b=2", a="\u00a3 rates", b="2")),
    ("a parameter in segments, out of order", *parameters(b"; a*1=d; b=2; a*0=c", a="cd", b="2")),
    ("segments with a charset", *parameters(b"; a*0*=us-ascii'en'This%20is%20even%20more%20; a*1*=%2A%2A%2Afun%2A%2A%2A%20; a*2=\"isn't it!\"",
                                            a="This is even more ***fun*** isn't it!")),
    ("a value with a charset beside a plain one", *parameters(b"; a=x; a*=utf-8''%e2%82%ac", a="\u20ac")),
    ("a charset that isn't known beside a plain value", *parameters(b"; a*=x-y''%e2; a=x", a="x")),
    ("a charset that isn't known", *parameters(b"; a*=x-y''%e2", a="x-y''%e2")),
    ("segments without the first", *parameters(b"; a*1=d; a*2=e", a="d")),
    ("an asterisk in a name", *parameters(b"; a*b=1; a*01=2; a=3", **{"a*b": "1", "a*01": "2", "a": "3"})),
    ("a parameter whose name isn't a token", *parameters(b"; a b=1; =2; *=3; \xe4=4; c=5", c="5")),
    ("a parameter with a byte that isn't UTF-8", *parameters(b"; a=\"\xe4\"", a="\ufffd")),
    ("a parameter without a value", *parameters(b"; a; b=", b="")),
    ("parameters of a multipart", multi(b"b", b"\nx", fields=b"Content-Disposition: inline; a=1\nContent-Type: multipart/mixed; boundary=b"), [
        {"kind": "multi", "boundary": "b", "disposition": "inline", "disposition_parameters": {"a": "1"}}, leaf(stored_as="part-1.1")]),
    ("a Content-ID", *identified(b" <foo4*foo1@bar.net>", "foo4*foo1@bar.net")),
    ("a folded Content-ID", *identified(b"\n <foo4@bar.net>", "foo4@bar.net")),
    ("a Content-ID between comments", *identified(b" (<a@b> \\( (c)) <d@e> (f)", "d@e")),
    ("a Content-ID with blanks", *identified(b"\t< a@b >", "a@b")),
    ("a Content-ID without brackets", *identified(b" a@b ", "a@b")),
    ("a Content-ID that isn't closed", *identified(b" <a@b", "a@b")),
    ("an empty Content-ID", *identified(b" <>", None)),
    ("a Content-ID without a value", *identified(b"", None)),
    ("two Content-IDs", *identified(b" <a@b>\ncontent-id: <c@d>", "a@b")),
    ("a Content-ID with quotes and a byte that isn't UTF-8", *identified(b' <"a\xff"@b>', '"a\ufffd"@b')),
    ("a Content-ID of a multipart", multi(b"b", b"Content-ID: <c@d>\n\nx", fields=b"Content-ID: <a@b>\nContent-Type: multipart/mixed; boundary=b"), [
        {"kind": "multi", "boundary": "b", "content_id": "a@b"}, leaf(stored_as="part-1.1", content_id="c@d")]),
    ("quoted-printable", b"Content-Transfer-Encoding: quoted-printable\n\na=3Db=\nc\n", [leaf(stored_as=PART, size=5)]),
    ("base64 on two lines", b"Content-Transfer-Encoding: base64\n\naGkA\naGk=\n", [leaf(stored_as=PART, size=5)]),
    ("base64 that isn't whole", b"Content-Transfer-Encoding: base64\n\naGkA\na\n", [leaf(stored_as=PART, size=None)]),
    ("a digest", DIGEST, [
        {"type": "multipart/digest", "boundary": "d"}, {"kind": "message", "type": "message/rfc822"}, leaf(stored_as="part-1.1.1", size=3),
        leaf(type="text/plain", charset="koi8-r", stored_as="part-1.2")]),
    ("a multipart with a name and a charset", multi(b"b", b"\nx", fields=b"Content-Type: multipart/mixed; name=n; charset=c; boundary=b"), [
        {"kind": "multi", "boundary": "b", "charset": "c", "filename": "n", "raw_filename": "n"}, leaf(stored_as="part-1.1")]),
    ("a multipart without parts", b"Content-Type: multipart/mixed; boundary=b\n\nx\n", [{"kind": "multi", "boundary": "b"}]),
    ("a boundary with blanks at its end", multi(b"b", b"\nx", fields=b'Content-Type: multipart/mixed; boundary="b \t"'), [
        {"kind": "multi", "boundary": "b"}, leaf(stored_as="part-1.1")]),
    ("a boundary with quotes and other bytes", multi(b'a"\\\xff', b"\nx", fields=b'Content-Type: multipart/mixed; boundary="a\\"\\\\\xff"'), [
        {"kind": "multi", "boundary": 'a"\\\ufffd'}, leaf(stored_as="part-1.1")]),
]

# A disposition, and with `--utf8` the name that it says and the one of its file.
IN_UTF8 = [
    (b"attachment; filename*=UTF-8''na%C3%AFve%20r%C3%A9sum%C3%A9.pdf", "na\u00efve r\u00e9sum\u00e9.pdf", "na\u00efve_r\u00e9sum\u00e9.pdf"),
    (b"attachment; filename*0*=utf-8''%e2%82; filename*1*=%ac%20; filename*2=\"rates.txt\"", "\u20ac rates.txt", "__rates.txt"),
    (b"attachment; filename*=utf-8'en'%zz; filename=\"x.txt\"", "x.txt", "x.txt"),
    (b"attachment; filename=\"=?iso-8859-1?Q?caf=E9.txt?=\"", "caf\u00e9.txt", "caf\u00e9.txt"),
    (b"attachment; filename*=utf-8''%e2%80%aetxt.exe", "\u202etxt.exe", "_txt.exe"),
    (b"attachment; filename*=utf-8''..%2f..%2fetc%2fpasswd", "../../etc/passwd", "passwd"),
    (b"attachment; filename*1=\"b\"; filename*0=\"a\"", "ab", "ab"),
    (b"attachment; filename=" + "\u00e9".encode() * 60, "\u00e9" * 60, "\u00e9" * 50),
    (b"attachment; filename=a" + "\u00e9".encode() * 60, "a" + "\u00e9" * 60, "a" + "\u00e9" * 49),
    (b"attachment; filename*=utf-8''" + b"%c3%a9" * 170_000, "\u00e9" * 170_000, "\u00e9" * 50),
    (b"".join(b"; filename*%d=%s" % (number, b"x" * 100) for number in range(9_999, -1, -1)), "x" * 1_000_000, "x" * 100),
]


def mail(*fields, body=b"x", line=b"From a"):
    """A message of a mailbox with these fields; it ends with an empty line."""
    return b"".join(each + b"\n" for each in (line, *fields, b"", body, b""))


# What a row shows, the mailbox, the options, and what the fields of each message say.
MAILS = [
    ("no message", b"", [], []),
    ("a message without fields", b"\nx\n", [], [{}]),
    ("all fields, in another order", mail(b"In-Reply-To: <a@b>", b"Message-ID: <c@d>", b"Date: Mon, 2 Nov 2026 09:00:00 +0000", b"Subject: s",
                                          b"To: Bob <b@example.org>", b"From: Ann <a@example.org>"), [],
     [{"from": "Ann <a@example.org>", "to": "Bob <b@example.org>", "subject": "s", "date": "Mon, 2 Nov 2026 09:00:00 +0000",
       "message_id": "<c@d>", "in_reply_to": "<a@b>"}]),
    ("a message without a From-line", b"Subject: s\n\nx\n", [], [{"subject": "s"}]),
    ("two messages", mail(b"Subject: a") + mail(b"Subject: b"), [], [{"subject": "a"}, {"subject": "b"}]),
    ("names of another case", mail(b"SUBJECT: s", b"from : a", b"message-id: <m>"), [], [{"from": "a", "subject": "s", "message_id": "<m>"}]),
    ("the first of two fields", mail(b"Subject: a", b"Subject: b"), [], [{"subject": "a"}]),
    ("fields of a body", mail(body=b"Subject: s"), [], [{}]),
    ("a folded field", mail(b"Subject: a\n b\n\tc"), [], [{"subject": "a b\tc"}]),
    ("CR LF", b"From a\r\nSubject: a\r\n b\r\n\r\nx\r\n", [], [{"subject": "a b"}]),
    ("blanks at both ends", mail(b"Subject:\t a \t"), [], [{"subject": "a"}]),
    ("fields without a value", mail(b"Subject:", b"To: "), [], [{"to": "", "subject": ""}]),
    ("encoded words", mail(b"Subject: =?utf-8?q?caf=C3=A9?= =?iso-8859-1?Q?_=E9?= b", b"From: =?utf-8?b?SsO2cmc=?= <j@example.org>"), [],
     [{"from": "J\u00f6rg <j@example.org>", "subject": "caf\u00e9 \u00e9 b"}]),
    ("an encoded word with line breaks", mail(b"Subject: =?utf-8?q?a=0D=0Ab?="), [], [{"subject": "a  b"}]),
    ("an encoded word of an unknown charset", mail(b"Subject: =?x-y?q?a?="), [], [{"subject": "=?x-y?q?a?="}]),
    ("UTF-8 as it is", mail("Subject: \u20ac\U0001f600".encode()), [], [{"subject": "\u20ac\U0001f600"}]),
    ("bytes that aren't UTF-8", mail(b"Subject: a\xe9b", b"To: \xff\xfe"), [], [{"to": "\ufffd\ufffd", "subject": "a\ufffdb"}]),
    ("quotes, backslashes and control characters", mail(b'From: "A \\"B\\"" <a@b>', b"Subject: \x00\x01\x1f\x7f\x08\x0c/"), [],
     [{"from": '"A \\"B\\"" <a@b>', "subject": "\x00\x01\x1f\x7f\x08\x0c/"}]),
    ("angle brackets, with a comment", mail(b"Message-ID: (a) <c@d>", b"In-Reply-To: <a@b> <e@f>"), [], [{"message_id": "(a) <c@d>", "in_reply_to": "<a@b> <e@f>"}]),
    ("From-lines without a date", mail(b"Subject: a") + mail(b"Subject: b", line=b"From here on"), ["--rfc4155"], [{"subject": "a"}]),
    ("From-lines with dates", mail(b"Subject: a", line=b"From a Mon Nov  2 09:00:00 2026") + mail(line=b"From b")
     + mail(b"Subject: b", line=b"From c Mon Nov  2 09:00:00 2026"), ["--rfc4155"], [{"subject": "a"}, {"subject": "b"}]),
    ("From-lines before fields", mail(b"Subject: a") + b"From here on\n\n" + mail(b"Subject: b"), ["--mbox=field"], [{"subject": "a"}, {"subject": "b"}]),
    ("the parts of a message", mail(b"Subject: s", b"Content-Type: multipart/mixed; boundary=b", body=b"--b\nSubject: t\n\n--b\n\n--b--"), [], [{"subject": "s"}]),
]


def broad(count):
    """A multipart of many parts, all of one name."""
    parts = [b"--b\nContent-Type: image/gif; name=n%d.gif\n\nx\n" % (number % (count // 2)) for number in range(count)]
    text = b"Content-Type: multipart/mixed; boundary=b\n\n" + b"".join(parts) + b"--b--\n"
    said = [{"kind": "multi", "boundary": "b"}]
    for number in range(count):
        name = f"n{number % (count // 2)}.gif"
        said.append(leaf(filename=name, stored_as=name if number < count // 2 else name + ".1"))
    return text, said


def parametered(count):
    """A leaf whose disposition has many parameters, each of a name of its own and in two segments."""
    value = b"".join(b"; n%d*1=y; n%d*0=x" % (number, number) for number in range(count))
    return of(b"Content-Disposition: inline" + value, disposition="inline", stored_as=PART,
              disposition_parameters={f"n{number}": "xy" for number in range(count)})


def deep(levels):
    """Multiparts in multiparts, with a leaf in the last one. At level 101 all is a leaf."""
    text, said, size = b"\nx\n", [], 1
    for level in range(levels, 0, -1):
        if level == 100 and levels > 100:
            # The leaf of level 101: its content begins after its fields, and the ending before a delimiter isn't in it.
            size = len(text.split(b"\n\n", 1)[1]) - 1
        text = b"Content-Type: multipart/mixed; boundary=b%d\n\n--b%d\n%s--b%d--\n" % (level, level, text, level)
    for level in range(1, min(levels, 100) + 1):
        said.append({"kind": "multi", "boundary": f"b{level}"})
    level = min(levels, 100) + 1
    last = {"type": "multipart/mixed"} if levels > 100 else {"type": "text/plain"}
    said.append(leaf(size, **last, stored_as="part-1" + ".1" * (level - 1)))
    return text, said
