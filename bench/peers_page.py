"""The results of bench/peers as Markdown: for the terminal, and for docs/BENCHMARKS.md."""
import itertools, pathlib

PAGE = pathlib.Path(__file__).resolve().parent.parent / 'docs' / 'BENCHMARKS.md'
BEGIN, END = '<!-- bench/peers: from here -->', '<!-- bench/peers: to here -->'
GROUPS = {'list': 'List the sections', 'extract': 'Decode the last part', 'unpack': 'Decode all parts to files', 'json': 'List many small parts as JSON',
          'replace': 'Replace a field', 'rename': 'Rename all fields of a name', 'print': 'Print a field', 'pack': 'Build a message of files',
          'attach': 'Attach a file'}
PACKAGES = {'email': "Python's email", 'MIME::Tools': "Perl's MIME::Tools", 'Email::Simple': "Perl's Email::Simple"}
# A longer command isn't repeated in what is said of it.
LONGEST = 40


def seconds_of(value):
    return f'{value:.3f} s' if value < 10 else f'{value:.1f} s'


def megabytes_of(value):
    return f'{value:.1f} MB' if value < 100 else f'{value:.0f} MB'


def times_of(value):
    return f'{value:.2f}' if value < 10 else f'{value:.1f}' if value < 100 else f'{value:,.0f}'


def is_done(row):
    """Whether a command ended in time and with status 0."""
    return row['status'] == 0


def named(peer):
    return PACKAGES.get(peer, f'`{peer}`')


def times(row, own, key):
    """The multiple of what mimetool took, where both are known."""
    return times_of(row[key] / own[key]) if own[key] and row[key] is not None else ''


def cells(row, own):
    """The cells of a row beside those of mimetool."""
    if row['status'] is None:
        return [f'over {row["seconds"]:.0f} s', '', '', f'over {times(row, own, "seconds")}', '']
    shown = [seconds_of(row['seconds']), seconds_of(row['processor']), megabytes_of(row['megabytes'])]
    if not is_done(row):
        return shown + [f'status {row["status"]}', '']
    return shown + [times(row, own, 'seconds'), times(row, own, 'megabytes')]


def table(job):
    """The table of a job, in order of the time."""
    own = job['rows'][0]
    lines = [f'**{job["title"]}**', '', '| command | time | processor | memory | × time | × memory |', '|---|--:|--:|--:|--:|--:|']
    for row in [own] + sorted(job['rows'][1:], key=lambda row: (not is_done(row), row['seconds'])):
        command = row['command'].replace('|', '\\|')
        lines.append(f'| `{command}` | ' + ' | '.join(cells(row, own)) + ' |')
    return lines + ['']


def notes(jobs):
    """What the commands of a group do less or more than mimetool, each said once."""
    rows = [row for job in jobs for row in job['rows']]
    said = {}
    for row in [row for row in rows if row['note']]:
        is_of_all = all(other['note'] == row['note'] for other in rows if other['peer'] == row['peer'])
        is_long = len(row['command']) > LONGEST or '|' in row['command'] or row['peer'] in PACKAGES
        name = named(row['peer']) if is_of_all or is_long else f'`{row["command"]}`'
        said.setdefault(row['note'], {})[name] = True
    lines = [f'- {", ".join(names)}: {note}.' for note, names in said.items()]
    return lines + [''] if lines else []


def said_of_run(results):
    """The machine, the date and the versions."""
    versions = ', '.join(f'{name} {version}' for name, version in results['versions'].items() if name != 'mimetool')
    lines = [f'- date: {results["date"]}', f'- processor: {results["processor"]}, {results["cores"]} cores; {results["memory"]:.0f} GB of memory',
             f'- system: {results["system"]}; {results["kernel"]}', f'- mimetool {results["versions"]["mimetool"]}', f'- packages: {versions}']
    if results['missing']:
        lines.append('- not installed, and so left out: ' + ', '.join(results['missing']))
    if 'took' in results:
        took = results['took']
        lines.append(f'- the whole run took {f"{took} seconds" if took < 120 else f"{took / 60:.0f} minutes"}')
    if results['scale'] != 100:
        lines.append(f'- a trial: the inputs have {results["scale"]} % of their size')
    return lines + ['']


def better(job, key):
    """The peers that took less than mimetool, with their multiples of it, least first."""
    own, found = job['rows'][0], {}
    for row in job['rows'][1:]:
        if is_done(row) and is_done(own) and row[key] < own[key]:
            found[row['peer']] = min(row[key] / own[key], found.get(row['peer'], 1))
    return ', '.join(f'{named(peer)} {times_of(value)}' for peer, value in sorted(found.items(), key=lambda one: one[1]))


def counted(results):
    """How many commands that do mail were faster than mimetool, and how many took less memory."""
    pairs = [(row, job['rows'][0]) for job in results['jobs'] for row in job['rows'][1:] if row['peer'] not in results['floors']]
    fewer = {key: sum(row[key] < own[key] for row, own in pairs if is_done(row) and is_done(own)) for key in ('seconds', 'megabytes')}
    return f'Of the {len(pairs)} commands that do mail, {fewer["seconds"]} took less time than `mimetool`, and {fewer["megabytes"]} less memory.'


def losses(results):
    """The jobs in which a peer is faster than mimetool or takes less memory."""
    floors = [f'`{floor}`' for floor in results['floors']]
    lines = ['### Where mimetool is slower or takes more memory', '',
             f'{counted(results)} Here they are, with their multiples of what `mimetool` took; {", ".join(floors[:-1])} and {floors[-1]} do no mail.',
             '', '| job | input | less time | less memory |', '|---|---|---|---|']
    for job in results['jobs']:
        cheaper = [better(job, 'seconds'), better(job, 'megabytes')]
        if any(cheaper):
            lines.append(f'| {GROUPS[job["group"]].lower()} | {job["title"]} | {cheaper[0]} | {cheaper[1]} |'.replace('json', 'JSON'))
    return lines + ['']


def section(results):
    """All that docs/BENCHMARKS.md has of a run."""
    lines = [*said_of_run(results), *losses(results)]
    for group, jobs in itertools.groupby(results['jobs'], lambda job: job['group']):
        jobs = list(jobs)
        lines += [f'### {GROUPS[group]}', '', *[line for job in jobs for line in table(job)], *notes(jobs)]
    return '\n'.join(lines)


def write_page(results):
    """Puts the section of a run into docs/BENCHMARKS.md, in the place of the last one."""
    before, found, rest = PAGE.read_text(encoding='utf-8').partition(BEGIN)
    _, end, after = rest.partition(END)
    if not found or not end:
        raise SystemExit(f'{PAGE} lacks the comments {BEGIN} and {END}')
    PAGE.write_text(f'{before}{BEGIN}\n\n{section(results)}\n{END}{after}', encoding='utf-8')
