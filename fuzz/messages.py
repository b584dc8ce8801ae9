"""Messages of the lines that matter to MIME."""

BOUNDARIES = [b"b", b"b", b"b", b"b-", b"b-", b"b--", b"bb", b"-b", b"--", b"a:b", b"a:b", b"a b", b"b ", b"B", b"=_x", b'x"y', b"x\\y",
              b"b\r", b"", b"y" * 70, b"\xc3\xa9", b"(b)", b"b;c", b"b=c"]
FIELDS = [b"A: b", b"a: c", b"A : b", b"A\t: b", b"A:", b"A: ", b"Subject: t", b"subject:x", b"From: y", b"From : y",
          b"MIME-Version: 1.0", b"mime-version :1", b"Content-X: y", b"content-: z", b"--b: c", b"--a:b", b"--b--:", b"Old-A: z",
          b"X-Y:z\x80\xff", b"Subject: =?utf-8?B?w6Q=?= =?Iso-8859-1?q?=e9_b?= c", b"A: =?utf-8?Q?a=0Ab?=\t=?us-ascii?B?/w==?=",
          b"A:\t=?x?q?a?= =?utf-8?b?YQ==?= =?utf-8?b?YR==?= =?utf-8?q?=?=", b"A:=?utf-8?q??= =?UTF-8?B?=E9?= =?utf-8*en?q?a?=", b"A:b\rc", b"A: b:c", b"!: #", b"Content-Type-: x"]
IDS = [b" <a@b>", b" <a@b>", b"a", b" <>", b"", b" (x) <a.txt@b>", b" (<x>\\) <y>) <z>", b" <a@b", b" \" <q>", b" <a(1)@b>", b" <../x>", b" (<x>"]
ENCODINGS = [b"base64", b"base64", b"quoted-printable", b"quoted-printable", b"7bit", b"8BIT", b"binary", b"", b" Base64 (x)",
             b"x-uuencode", b"(7bit)", b"base(x)64", b"base64;", b"quoted-printable (x", b'"base64"', b"7bit 8bit"]
NAMES = [b"a.txt", b"a b.pdf", b"../x", b"c:\\d\\e", b".x", b"-x", b"", b"a_b.pdf", b"a_b.pdf.1", b"a.txt.1", b"\xc3\xa9", b"a/",
         b"part-1", b"part-1.2", b"n" * 101, b"/" + b"m" * 99, b"N" * 98 + b".gif", b"..", b"=?utf-8?Q?a?=", b"a\rb", b"a%20b", b"=?iso-8859-1?Q?caf=E9.txt?=", b"\xff", b"\xd7\xa9\xe2\x80\xae.x", b"=?utf-8?b?w6k=?= =?utf-8?q?=2F=2D?=",
         b"=?windows-1252?Q?=80?=", b"=?UTF-8*de?Q?=C3=BC?=", b"=?koi8-u?B?rr4=?=", b"=?cp1255?Q?=E0?=", b"=?x?Q?a?="]
EXTENDED = [b"utf-8''NAME", b"UTF-8'en'%e2%82%acx", b"iso-8859-1''caf%E9.txt", b"us-ascii''%41", b"us-ascii''%e9", b"koi8-r''%f0", b"''a", b"utf-8'a",
            b"utf-8''%zz", b"utf-8''%4", b"utf-8''%E2%80%AEtxt.exe", b"utf-8''..%2f..%5c%2e%2D", b"utf-8''" + b"%C3%A9" * 51, b"x" + b"'" * 3,
            b"utf-8''%ff", b"utf-8''%F0%9D%94%B8%CC%81%C2%BD", b"Windows-1252''%80.txt", b"KOI''%c1", b"iso-8859-3''%a5", b"iso-2022-jp''a"]
SEGMENTS = [b"*0=a", b"*0*=utf-8''%e2%82", b"*1*=%ac%20", b"*1=\xc3\xa9", b"*2=\"rates.txt\"", b"*0*=''x", b"*01=n", b"*2*=%2", b"*1=b", b"*3=c", b"*0=/", b"*"]
JUNK = [b"", b"", b"", b" ", b"\t", b" x", b"\tx", b"x", b"y ", b"From a", b"From ", b"From", b"From x: y", b">From a", b":", b" :",
        b"a b: c", b"a\r", b"\r", b"a\rb", b"\x00\xff", b"\xc3\xa9: x", b".", b"--", b"-- ", b"----", b"---", b"A", b"\x7f: x"]
ENCODED = [b"aGk=", b"aGk", b"aGl=", b"aGkA", b"aGkAa", b"a G\tk=zz", b"=", b"=3D", b"=3d=", b"=zz", b"a= ", b"a\t", b"a=\t", b"==41",
           b"=4", b"!aGkK", b"x =20", b"=\r", b"a=0D=0A", b"AAAA" * 19, b"AA=A", b"=C3=A9"]
SUFFIXES = [b"", b"", b"", b"", b" ", b"\t ", b"\r", b"x", b"-", b" x"]
MULTIPARTS = [
    b"multipart/SUB; boundary=BOUND", b"multipart/SUB; boundary=BOUND", b"multipart/SUB; boundary=BOUND",
    b"multipart/SUB;boundary=BOUND", b"Multipart/SUB (x; boundary=z) ; charset=a; Boundary = BOUND", b"multipart/SUB;\n boundary=BOUND",
    b"multipart/SUB; boundary=BOUND; boundary=other", b'multipart/SUB; x="a;b"; boundary=BOUND', b"(a(b)\\)c) multipart/SUB;;boundary=\tBOUND",
    b"\n multipart/SUB\n\t;\n boundary=BOUND (x", b"multi(x)part/SUB; boundary=(y)BOUND", b"multipart/SUB; boundary=BOUND; x=\"y"]
SPOILED = [
    b"multipart /SUB; boundary=BOUND", b"multipart/SUB boundary=BOUND", b"multipart/SUB; boundary=other; boundary=BOUND",
    b'multipart/SUB; x="a; boundary=BOUND', b"multipart/SUB; (x boundary=BOUND", b"/SUB; boundary=BOUND", b"multipart; boundary=BOUND",
    b"multipart/; boundary=BOUND", b"multipart/SUB; boundary", b"multipart/SUB; boundary=", b"multipart/SUB/x; boundary=BOUND",
    b'multipart/SUB; "boundary"=BOUND', b"multipart/SUB; boundary*=BOUND", b"", b"multipart/SUB; a=boundary=BOUND", b"garbage"]
LEAVES = [b"text/plain", b"Text/HTML", b"text/plain; charset=\"utf-8\"", b"image/gif", b"application/pdf", b"text / html", b"x/y;z",
          b"message/partial", b"image/gif; name=NAME", b"text/x; name=\"NAME\"", b"garbage; name=NAME", b"image/gif; NAME=\"NAME"]
MESSAGES = [b"message/rfc822", b"message/rfc822", b"message/global", b"MESSAGE/Global (x)", b"message/rfc822; x", b"message /rfc822"]
SUBTYPES = [b"mixed", b"mixed", b"digest", b"Digest", b"alternative", b"x-y"]
DISPOSITIONS = [b"attachment; filename=\"NAME\"", b"inline; filename=NAME", b"; FileName=NAME", b"attachment", b"x; y=z; filename=\"NAME",
                b"filename=NAME", b"attachment; filename=a.txt; filename=NAME"]


def written_boundary(chooser, boundary):
    """A boundary as a parameter's value: bare, quoted, escaped, with blanks, unclosed."""
    quoted = boundary.replace(b"\\", b"\\\\").replace(b'"', b'\\"')
    bare = b'"' + quoted + b'"' if set(boundary) & set(b' \t"();\\') and chooser.maybe(0.9) else boundary
    return chooser.weighted([(bare, 6), (b'"' + quoted + b'"', 8), (b'"' + quoted + b' \t"', 1), (b'"' + quoted + b'" x', 1),
                             (b'"\\' + quoted + b'"', 0.5), (b"(c)" + boundary, 1), (b'"' + quoted, 1), (boundary + b" ", 1)])


def type_field(chooser, value):
    """The lines of a Content-Type of that value, folded where it has line feeds."""
    name = chooser.weighted([(b"Content-Type: ", 8), (b"content-type:", 2), (b"CONTENT-TYPE :\t", 1), (b"Content-Type:\n ", 1)])
    return (name + value).split(b"\n")


def multipart_field(chooser, boundary):
    """The lines of a Content-Type of a multipart, now and then one that is none."""
    template = chooser.choice(SPOILED if chooser.maybe(0.08) else MULTIPARTS)
    value = template.replace(b"SUB", chooser.choice(SUBTYPES)).replace(b"BOUND", written_boundary(chooser, boundary))
    return type_field(chooser, value)


def disposition(chooser):
    """The value of a Content-Disposition, with names of any kind."""
    value = chooser.choice(DISPOSITIONS).replace(b"NAME", chooser.choice(NAMES))
    if chooser.maybe(0.3):
        value += b"; filename*=" + chooser.choice(EXTENDED).replace(b"NAME", chooser.choice(NAMES))
    if chooser.maybe(0.2):
        value += b"".join(b"; filename" + chooser.choice(SEGMENTS) for _ in range(chooser.randint(1, 4)))
    return value


def leaf_fields(chooser):
    """The lines of fields that describe a leaf."""
    found = []
    if chooser.maybe(0.6):
        more = b"; name*=" + chooser.choice(EXTENDED) if chooser.maybe(0.1) else b""
        found.append(type_field(chooser, chooser.choice(LEAVES).replace(b"NAME", chooser.choice(NAMES)) + more))
    if chooser.maybe(0.3):
        found.append([b"Content-Disposition: " + disposition(chooser)])
    if chooser.maybe(0.5):
        found.append([b"Content-Transfer-Encoding:" + chooser.choice([b"", b" "]) + chooser.choice(ENCODINGS)])
    if chooser.maybe(0.25):
        found.append([b"Content-ID:" + chooser.choice(IDS)])
    return found


def mark(chooser, boundaries):
    """A line that is a delimiter or a close line of some boundary, or nearly."""
    return b"--" + chooser.choice(boundaries) + chooser.choice([b"", b"", b"--"]) + chooser.choice(SUFFIXES)


def odd_line(chooser, boundaries):
    """Any line that matters."""
    source = chooser.weighted([(FIELDS, 3), (JUNK, 4), (ENCODED, 1), (None, 3)])
    return chooser.choice(source) if source else mark(chooser, boundaries)


def head(chooser, about, boundaries):
    """Fields, those about the body among them, and a separator in most cases."""
    fields = [[field] for field in chooser.some(FIELDS, 2)] + about
    if fields and chooser.maybe(0.15):
        fields += [[fields[0][0].swapcase()]] * chooser.randint(1, 2)
    chooser.shuffle(fields)
    more = [b" x", b"\ty", b" ", b" a: b", b" --b"]
    fields = [field + ([chooser.choice(more)] if chooser.maybe(0.1) else []) for field in fields]
    separator = chooser.weighted([([b""], 24), ([], 1), ([b" "], 0.5), ([odd_line(chooser, boundaries)], 1)])
    return [line for field in fields for line in field] + separator


def leaf(chooser, boundaries):
    """An entity without parts."""
    sources = [(ENCODED, 3), (JUNK, 3), ([b"hi", b"text", b""], 3)]
    body = [chooser.choice(chooser.weighted(sources)) for _ in range(chooser.randint(0, 4))]
    if chooser.maybe(0.08):
        body.append(mark(chooser, boundaries))
    return head(chooser, leaf_fields(chooser), boundaries) + body


def held_message(chooser, depth, boundaries):
    """An entity that holds a message, mostly."""
    about = [type_field(chooser, chooser.choice(MESSAGES))]
    if chooser.maybe(0.15):
        about.append([b"Content-Transfer-Encoding: " + chooser.choice(ENCODINGS)])
    return head(chooser, about, boundaries) + entity(chooser, depth - 1, boundaries)


def multipart(chooser, depth, boundaries):
    """A multipart with its parts, its close line and what is around them."""
    boundary = chooser.choice(boundaries)
    stem, found = boundary.rstrip(b" \t"), head(chooser, [multipart_field(chooser, boundary)], boundaries)
    found += [odd_line(chooser, boundaries) for _ in range(chooser.choice([0, 0, 0, 1, 2]))]
    for _ in range(chooser.choice([0, 1, 1, 2, 2, 2, 3])):
        found.append(b"--" + stem + chooser.choice(SUFFIXES[:6]))
        found += entity(chooser, depth - 1, boundaries)
    if chooser.maybe(0.8):
        found.append(b"--" + stem + b"--" + chooser.choice(SUFFIXES[:6]))
        found += [odd_line(chooser, boundaries) for _ in range(chooser.choice([0, 0, 1, 2]))]
    return found


def entity(chooser, depth, boundaries):
    """An entity of any kind, at most so deep."""
    kind = chooser.weighted([("leaf", 3 if depth else 1), ("multipart", 6 * (depth > 0)), ("message", 2 * (depth > 0))])
    if kind == "leaf":
        return leaf(chooser, boundaries)
    return multipart(chooser, depth, boundaries) if kind == "multipart" else held_message(chooser, depth, boundaries)


def deep(chooser, boundaries):
    """A hundred levels or so, each the only one below the one before."""
    found, again = [], chooser.choice([0, 0, 0, 0.02])
    for level in range(chooser.randint(97, 102)):
        if chooser.maybe(0.4):
            found += [b"Content-Type: message/" + chooser.choice([b"rfc822", b"global"]), b""]
        else:
            boundary = chooser.choice(boundaries) if chooser.maybe(again) else b"b%d" % level
            found += [b"Content-Type: multipart/" + chooser.choice([b"mixed", b"digest"]) + b"; boundary=\"" + boundary + b'"', b"",
                      b"--" + boundary]
    return found + entity(chooser, 2, boundaries)


def nested(chooser, levels):
    """Multiparts in each other without a fault, of boundaries that are much alike."""
    if levels == 0:
        return [b"A: b", b"", chooser.choice([b"x", b"", b"--b"])]
    boundary = chooser.choice([b"b", b"b-", b"b--", b"bb", b"a:b", b"c"])
    found = [b'Content-Type: multipart/%s; boundary="%s"' % (chooser.choice(SUBTYPES), boundary), b""]
    for part in [nested(chooser, levels - 1)] + [[b"", b"y"]] * chooser.choice([0, 1]):
        found += [b"--" + boundary] + part
    return found + [b"--" + boundary + b"--"][:chooser.maybe(0.8)]


def joined(chooser, contents):
    """A text of lines, all of one ending or of any."""
    endings = chooser.weighted([([b"\n"], 10), ([b"\r\n"], 4), ([b"\n", b"\r\n"], 3), ([b"\n", b"\r\n", b"\r", b"\r\r\n"], 1)])
    text = b"".join(content + chooser.choice(endings) for content in contents)
    if chooser.maybe(0.25):
        text = text[:-1]
    return text + chooser.weighted([(b"", 20), (b"\r", 1), (b"x", 1)])


def spoiled(chooser, contents, boundaries):
    """Lines of which some are lost, doubled, swapped or others."""
    contents = list(contents)
    for _ in range(chooser.weighted([(0, 12), (1, 3), (3, 1)])):
        at = chooser.randrange(len(contents) + 1)
        change = chooser.choice(["lose", "double", "add", "move"])
        line = contents[at] if change != "add" and at < len(contents) else odd_line(chooser, boundaries)
        if change in ("lose", "move"):
            contents = contents[:at] + contents[at + 1:]
            at = chooser.randrange(len(contents) + 1)
        if change != "lose":
            contents.insert(at, line)
    return contents


def spoiled_bytes(chooser, text):
    """A text of which a byte or two are others."""
    for _ in range(chooser.weighted([(0, 12), (1, 1), (2, 1)])):
        at = chooser.randrange(len(text) + 1)
        text = text[:at] + bytes([chooser.choice(b"\r\n :;-=\"()\\\x00\xffab/")]) + text[at + chooser.randint(0, 1):]
    return text


def message(chooser, depth=4, boundaries=None):
    """A message, or what is nearly one."""
    boundaries = boundaries or [chooser.choice(BOUNDARIES) for _ in range(chooser.choice([1, 2, 2, 3, 4]))]
    way = chooser.weighted([("entity", 12), ("nested", 3 * (depth > 1)), ("lines", 2), ("deep", 0.2 * (depth == 4)), ("short", 0.3)])
    if way == "short":
        return bytes(chooser.choice(b"A:b \t\r\n\n-") for _ in range(chooser.randint(0, 12)))
    levels = min(depth, chooser.choice([0, 1, 1, 2, 2, 3, 3, 4]))
    if way == "entity":
        kind = chooser.choice([entity, multipart, multipart, multipart]) if levels else entity
        contents = kind(chooser, levels, boundaries)
    elif way == "nested":
        contents = nested(chooser, levels + 1)
    else:
        contents = deep(chooser, boundaries) if way == "deep" else [odd_line(chooser, boundaries) for _ in range(chooser.randint(0, 9))]
    contents = chooser.some([b"From a", b"From a: b", b"From b", b"From : c"], 1)[:chooser.maybe(0.4)] + contents
    return spoiled_bytes(chooser, joined(chooser, spoiled(chooser, contents, boundaries)))


def piece(chooser, boundaries):
    """What a script puts into a message: an entity, a body, or odd lines, marks of the message among them."""
    if chooser.maybe(0.2):
        return joined(chooser, [b""] + [mark(chooser, boundaries) for _ in range(chooser.randint(1, 5))])
    return message(chooser, 1, chooser.choice([None, None, boundaries]))


def mailbox(chooser):
    """Messages after each other, with From-lines in front and in between."""
    found = b""
    for _ in range(chooser.randint(0, 4)):
        found += chooser.choice([b"From a\n", b"From b\r\n", b"", b"From a: b\n", b"From : x\n", b"From \n"]) + message(chooser, 1)
        found += chooser.choice([b"\n\n", b"\n", b"", b"\r\n\r\n", b"\n \n", b"\n\r\n", b"\n\nFrom x\n\n", b"\n\nFrom here on\n"])
    return found
