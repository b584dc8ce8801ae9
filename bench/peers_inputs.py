"""The messages, mailboxes and files that bench/peers measures on. The same scale gives the same bytes each time."""
import base64, random

MEGABYTE = 1_000_000
# A body is written in pieces of about this size.
PIECE = 57_000
TEXT_LINE = b'a line of a text that is sent as it is, with no more than that\n'


def base64_piece(source):
    return base64.encodebytes(source.randbytes(PIECE * 3 // 4))


def qp_piece(source):
    line = b'caf=C3=A9 and so on, with a line that goes on =\n to the next one\n'
    return line * (PIECE // len(line))


def plain_piece(source):
    return TEXT_LINE * (PIECE // len(TEXT_LINE))


BODIES = [('base64', 'application/octet-stream', base64_piece), ('quoted-printable', 'text/plain', qp_piece), ('7bit', 'text/plain', plain_piece)]
BINARY_FILE = ('application/octet-stream', lambda source: source.randbytes(PIECE))
TEXT_FILE = ('text/plain', plain_piece)


def write_body(file, piece, wanted, source):
    """Writes whole lines of a body, of about the wanted number of bytes."""
    while wanted > 0:
        lines = piece(source)
        if len(lines) > wanted:
            lines = lines[:lines.rfind(b'\n', 0, wanted + 80) + 1]
        file.write(lines)
        wanted -= len(lines)


def make_message(path, parts, bodies, size):
    """Writes a multipart of attachments, with bodies of the given kinds in turn, of about this size in all."""
    source = random.Random(1)
    with open(path, 'wb') as file:
        file.write(b'Subject: bench\nX: old\nMIME-Version: 1.0\nContent-Type: multipart/mixed; boundary="=_b"\n\n')
        for number in range(1, parts + 1):
            encoding, media, piece = bodies[number % len(bodies)]
            head = f'--=_b\nContent-Type: {media}; name="f{number}.bin"\nContent-Disposition: attachment; filename="f{number}.bin"\nContent-Transfer-Encoding: {encoding}\n\n'
            file.write(head.encode())
            write_body(file, piece, size // parts, source)
        file.write(b'--=_b--\n')


# The lines of a message before the first body: its header, the delimiter, the fields of the part, the empty line.
LINES_BEFORE_BODY = 10


def make_files(folder, count, kinds, size):
    """Writes files with bytes of the given kinds in turn, of this size in all, and returns their types and paths."""
    source = random.Random(2)
    folder.mkdir(exist_ok=True)
    files = []
    for number in range(count):
        media, piece = kinds[number % len(kinds)]
        path = folder / f'f{number}.bin'
        with open(path, 'wb') as file:
            wanted = size // count
            while wanted > 0:
                wanted -= file.write(piece(source)[:wanted])
        files.append((media, path))
    return files


def mailbox_message(number, size):
    """The header and the body of a message of about this size."""
    head = f'From: Ann <ann@example.org>\nTo: Bob <bob@example.org>\nSubject: number {number}\nX: old\nMessage-ID: <{number}@example.org>\n\n'.encode()
    return head + TEXT_LINE * ((size - len(head) - 46) // len(TEXT_LINE))


def make_mailbox(path, messages, size):
    with open(path, 'wb') as file:
        for number in range(messages):
            file.write(b'From ann@example.org Mon Nov 23 00:00:00 2026\n' + mailbox_message(number, size) + b'\n')


def make_maildir(folder, messages, size):
    """Writes the messages of such a mailbox as the files of a Maildir folder."""
    for name in ('cur', 'new', 'tmp'):
        (folder / name).mkdir(parents=True, exist_ok=True)
    for number in range(messages):
        (folder / 'cur' / f'{number:06d}.bench:2,').write_bytes(mailbox_message(number, size))


def make_repeated(path, count):
    """Writes a message with many fields of one name."""
    with open(path, 'wb') as file:
        for number in range(count):
            file.write(f'X: value number {number}\n'.encode())
        file.write(b'\nbody\n')
