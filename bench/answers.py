"""What `mediactl` and `medialive` may answer: their statuses, and what is printed with each. bench/failing and
bench/hostile judge by it, and .ci/answers runs the programs by it."""
import os
import re
import select
import subprocess
import tempfile
import time

TOP = os.path.dirname(os.path.dirname(os.path.abspath(__file__)))
BUILT = os.path.join(TOP, 'crates/mediactl/out/mediactl')
BUILT_LIVE = os.path.join(TOP, 'crates/medialive/out/medialive')

NAME = rb'[a-z][a-z0-9_-]{0,15}'
SLOT = NAME + b'/' + NAME
HEARD = rb'hears %%s %s\n' % NAME
PATH = (rb'path (%s) (%s) (?:open|close|hold) (?:open|close|hold) (?:closed (?:audio|video)\n|flowing (?:audio|video)\n'
        % (SLOT, SLOT) + HEARD % rb'\1' + HEARD % rb'\2' + rb')')
TURN = (rb'turn (?:(?:take|retry) N N|shift N|set N N (?:open|close|hold)|link N N N|(?:hear|talk) N N (?:on|off)|tell N N)\n'
        .replace(b'N', NAME))
COUNT = rb'(?:0|[1-9][0-9]*)'
WHYS = rb'(?:why %s (?:[1-9][0-9]*|never)\n)*' % SLOT
MIXES = rb'(?:conf %s legs %s\n(?:mix %s %s %s\n)*)?' % (NAME, COUNT, SLOT, SLOT, NAME)
SETTLES = rb'(?:settle [1-9][0-9]*\n(?:%s)*%s%s)*' % (PATH, WHYS, MIXES)
JOURNAL = rb'(?:journal\n(?:%s|settle\n)*)?' % TURN
SUMMARY = (rb'gen C C\nboxes C channels C\n' + b''.join(
    b'settle %d flowing C closed C heard C\n' % k for k in (1, 2, 3))).replace(b'C', COUNT)

# what is printed at each status
PRINTED = {
    0: re.compile(SETTLES + JOURNAL + b'|' + SUMMARY),
    1: re.compile(rb'fault (?:[1-9]|1[0-8]|20) line [1-9][0-9]*\n|version %s\n' % SLOT),
    2: re.compile(rb'usage\n'),
    3: re.compile(b''),
    4: re.compile(b''),
    6: re.compile(rb'restless %s\n' % NAME),
    7: re.compile(rb'ring %s\n' % SLOT),
    8: re.compile(rb'fault 3[1-5] turn [1-9][0-9]*\n'),
    9: re.compile(rb'nobox %s\n' % NAME),
    10: re.compile(rb'cut %s\n' % SLOT),
}
# what is told on standard error, line by line
TOLD = re.compile(rb'(?:media(?:ctl|live): [ -~]*\n)*')


def settles_are_numbered(printed):
    """Whether the settles are numbered from 1."""
    numbers = re.findall(rb'(?m)^settle ([0-9]+)', printed)
    return numbers == [b'%d' % (k + 1) for k in range(len(numbers))]


def whole(printed, status):
    """Whether this may be all that is printed at this status."""
    form = PRINTED.get(status)
    return form is not None and form.fullmatch(printed) is not None and settles_are_numbered(printed)


class Answer:
    """What one run gave: its status, which is negative for a signal and None where it took too long, what it printed,
    what it told, and how many seconds it took."""

    def __init__(self, status, printed, told, seconds):
        self.status, self.printed, self.told, self.seconds = status, printed, told, seconds


class Runner:
    """Runs a program again and again, with its own files for what is read and written."""

    def __init__(self, program, seconds):
        self.program, self.seconds = program, seconds
        self.input, self.output, self.error = (tempfile.TemporaryFile() for _ in range(3))

    def give(self, text):
        """What the next runs read."""
        self.input.seek(0)
        self.input.truncate()
        self.input.write(text)
        self.input.flush()

    def run(self, words, environment=None, descriptors=(), redirected=None):
        """Runs it with these words, and, if need be, with descriptors that it inherits, and redirected as a shell does it."""
        for file in (self.input, self.output, self.error):
            file.seek(0)
        self.output.truncate()
        self.error.truncate()
        command = [self.program, *words]
        if redirected:
            command = ['bash', '-c', 'exec "$@" ' + redirected, 'bash', *command]
        start = time.monotonic()
        process = subprocess.Popen(command, stdin=self.input, stdout=self.output, stderr=self.error, env=environment,
                                   pass_fds=descriptors)
        ends = os.pidfd_open(process.pid)
        in_time = select.select([ends], [], [], self.seconds)[0]
        os.close(ends)
        if not in_time:
            process.kill()
        status = process.wait() if in_time else process.wait() and None
        seconds = time.monotonic() - start
        self.output.seek(0)
        self.error.seek(0)
        return Answer(status, self.output.read(), self.error.read(), seconds)


def examples():
    """Every example of `mediactl`: its name, its words, what it reads, and what lies beside it as what is printed."""
    return of_folders(('examples', ['run']), ('examples/journals', ['check']), ('examples/why', ['why']), ('examples/scenes', None))


def live_examples():
    """The same of `medialive`: by one operator every example prints what `run` does."""
    return of_folders(('examples', ['live', '1']), ('examples/live', None))


def of_folders(*folders):
    """The cases of these folders, with these words, or without them by those that lie beside each case."""
    for folder, words in folders:
        for name in sorted(os.listdir(os.path.join(TOP, folder))):
            path = os.path.join(TOP, folder, name)
            if not os.path.isfile(path + '.stdout'):
                continue
            own = open(path + '.args').read().split('\n')[:-1] if words is None else words
            yield os.path.join(folder, name), own, open(path, 'rb').read(), open(path + '.stdout', 'rb').read()
