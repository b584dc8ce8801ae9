#!/usr/bin/env python3
"""bench/peers_email.py JOB WORD..: the jobs of bench/peers by Python's email and mailbox packages.

Messages are read with the policy compat32, which is faster than the default one, except to attach a file, which it can't do.
Where a job is about fields, the body is left as it is."""
import email, email.generator, email.message, email.parser, email.policy, json, mailbox, os, sys


def sections(message, path='1'):
    """All sections with their paths, in order."""
    yield path, message
    if message.is_multipart():
        for number, part in enumerate(message.get_payload(), 1):
            yield from sections(part, f'{path}.{number}')


def read_message():
    return email.message_from_binary_file(sys.stdin.buffer)


def write_message(message):
    email.generator.BytesGenerator(sys.stdout.buffer, mangle_from_=False).flatten(message)


def list_sections():
    for path, part in sections(read_message()):
        print(path, part.get_content_type(), part.get('Content-Transfer-Encoding', '7bit'))


def list_json():
    for path, part in sections(read_message()):
        said = {'path': path, 'type': part.get_content_type(), 'encoding': part.get('Content-Transfer-Encoding', '7bit')}
        if part.is_multipart():
            said['boundary'] = part.get_boundary()
        else:
            content = part.get_payload(decode=True)
            said.update(charset=part.get_content_charset(), disposition=part.get_content_disposition(), filename=part.get_filename(), size=len(content))
        print(json.dumps(said))


def extract(wanted):
    for path, part in sections(read_message()):
        if path == wanted:
            sys.stdout.buffer.write(part.get_payload(decode=True))


def unpack():
    for path, part in sections(read_message()):
        if not part.is_multipart():
            with open(os.path.basename(part.get_filename() or f'part-{path}'), 'xb') as file:
                file.write(part.get_payload(decode=True))


def replace(name, value):
    message = email.parser.BytesHeaderParser().parse(sys.stdin.buffer)
    del message[name]
    message[name] = value
    write_message(message)


def rename(name, value):
    message = email.parser.BytesHeaderParser().parse(sys.stdin.buffer)
    values = message.get_all(name, [])
    del message[name]
    for old in values:
        message[f'Old-{name}'] = old
    message[name] = value
    write_message(message)


def replace_in_each(name, value):
    for message in mailbox.mbox('/dev/stdin', create=False):
        del message[name]
        message[name] = value
        sys.stdout.buffer.write(f'From {message.get_from()}\n'.encode())
        write_message(message)
        sys.stdout.buffer.write(b'\n')


def print_of_each(name):
    for message in mailbox.mbox('/dev/stdin', factory=email.parser.BytesHeaderParser().parse, create=False):
        print(message[name])


def add_file(message, spec):
    media, _, path = spec.partition(':')
    main, _, sub = media.partition('/')
    with open(path, 'rb') as file:
        content = file.read()
    if main == 'text':
        message.add_attachment(content.decode(), subtype=sub, cte='quoted-printable', filename=os.path.basename(path))
    else:
        message.add_attachment(content, main, sub, filename=os.path.basename(path))


def pack(*specs):
    message = email.message.EmailMessage()
    for name, value in email.parser.BytesHeaderParser().parse(sys.stdin.buffer).items():
        message[name] = value
    for spec in specs:
        add_file(message, spec)
    write_message(message)


def attach(spec):
    message = email.message_from_binary_file(sys.stdin.buffer, policy=email.policy.default)
    add_file(message, spec)
    write_message(message)


JOBS = {'list': list_sections, 'json': list_json, 'extract': extract, 'unpack': unpack, 'replace': replace, 'rename': rename,
        'replace-each': replace_in_each, 'print-each': print_of_each, 'pack': pack, 'attach': attach}

if __name__ == '__main__':
    JOBS[sys.argv[1]](*sys.argv[2:])
