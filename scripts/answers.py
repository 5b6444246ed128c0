"""What an answer says of a job: its samples and the words that were put out, piece by piece, with their times."""

import collections
import itertools
import operator

import jobs
import times
import usage

# One sample or one word that was put out: its time in nanoseconds, its subdevice and channel by number, the level in
# micro-units (of a word of an output in `expand`: None), and the number of the channel's range.
Row = collections.namedtuple("Row", "time sub channel level range")

# Samples of one command that follow each other: the number of the first one, and of each its time and its text, which
# is its list index and what comes after that.
Piece = collections.namedtuple("Piece", "stream first times texts")


class Stream:
    """The samples of one command, or of one instruction, and what their texts mean: levels, words or codes."""

    def __init__(self, job, command, call, form="level"):
        self.job, self.command, self.form = job, command, form
        self.sub, self.width = job.subs[command.sub], len(command.list)
        self.call, self.conversions, self.given, self.released = call, None, 0, 0

    def piece(self, first, texts):
        """A piece whose times are those of the command's conversions."""
        if self.conversions is None:
            self.conversions = times.Conversions(self.job, self.command, self.call)
        if first + len(texts) > self.conversions.total:
            raise jobs.Fault("the answer has more samples than the job's command")
        return Piece(self, first, self.conversions.times(first, len(texts)), texts)

    def piece_at(self, moments, texts):
        """The next piece, where the answer gives its times."""
        self.given += len(texts)
        return Piece(self, self.given - len(texts), moments, texts)

    def level(self, index, text):
        """The level that a sample's text gives."""
        words = text.split()
        if int(words[0]) != index:
            raise jobs.Fault("a sample is of list entry %s and not %d" % (words[0], index))
        channel, number = self.command.list[index]
        if self.form == "none":
            return None
        if self.form == "level" and words[1] != "raw":
            return int(words[1])
        code = int(words[-1])
        if self.form != "code":
            code = self.sub.code_of_word(channel, code)
        return self.sub.level_of_code(channel, number, code)

    def moment(self, number):
        """The time of a conversion that the answer may lack."""
        return self.conversions.time(number)


class Made(dict):
    """What is made of a text, made once: of one list entry of a stream."""

    def __init__(self, make, stream, index):
        super().__init__()
        self.make, self.stream, self.index = make, stream, index

    def __missing__(self, text):
        try:
            level = self.stream.level(self.index, text)
        except (ValueError, IndexError):
            raise jobs.Fault("the answer has a sample that the job hasn't: " + text)
        self[text] = made = self.make(self.stream, self.index, level)
        return made


def made_of(piece, maker, made):
    """What maker(stream, index, level) makes of each sample of a piece. `made` keeps it from piece to piece."""
    stream, count = piece.stream, len(piece.texts)
    results = [None] * count
    for place in range(min(stream.width, count)):
        index = (piece.first + place) % stream.width
        known = made.get((stream, index))
        if known is None:
            known = made[stream, index] = Made(maker, stream, index)
        results[place::stream.width] = map(known.__getitem__, piece.texts[place::stream.width])
    return results


class Answer:
    """The lines of an answer, taken one after another."""

    def __init__(self, text):
        self.lines = list(filter(str.strip, text.split("\n")))
        self.at = 0
        if self.lines and self.lines[0].split()[0] in ("refused", "usage"):
            raise jobs.Fault("the answer is: " + self.lines[0])

    def next(self):
        return self.some(1)[0].split()

    def some(self, count):
        """So many lines."""
        self.at += count
        if self.at > len(self.lines):
            raise jobs.Fault("the answer ends before the job does")
        return self.lines[self.at - count:self.at]

    def block(self, is_of):
        """All lines up to the first that isn't of a kind."""
        return self.some(len(list(itertools.takewhile(is_of, itertools.islice(self.lines, self.at, None)))))


# Whether a line is a word that was put out, and whether it is a sample: it starts with a digit, so it is below a colon.
is_out = operator.methodcaller("startswith", "out ")
is_sample = ":".__gt__


def pieces_of(job, answer):
    """The samples of an answer and the words that are put out, in the answer's order."""
    first = job.lines[0][0] if job.lines else "none"
    take = {"expand": expanded, "go": streamed, "drive": streamed, "loop": looped, "none": looped}.get(first, played)
    if first == "test":
        raise jobs.Fault("a test has no samples")
    try:
        yield from take(job, answer)
    except (ValueError, IndexError, KeyError):
        raise jobs.Fault("the answer isn't one of this job")


def rows_of(job, answer):
    """The samples of an answer and the words that are put out, as rows, in the answer's order."""
    made = {}
    for piece in pieces_of(job, answer):
        for time, make in zip(piece.times, made_of(piece, row_of, made)):
            yield Row(time, *make)


def row_of(stream, index, level):
    """All of a row but its time."""
    channel, number = stream.command.list[index]
    return stream.command.sub, channel, level, number


def put_out(stream, lines):
    """The piece of lines `out SUB TIME INDEX WORD`."""
    words = [line.split(None, 3) for line in lines]
    return stream.piece_at([int(word[2]) for word in words], [word[3] for word in words])


def expanded(job, answer):
    for line in job.lines:
        command = job.command(line[2:])
        form = "none" if job.subs[command.sub].is_output() else "word"
        words = [text.split(None, 1) for text in answer.block(is_sample)]
        stream = Stream(job, command, int(line[1]), form)
        yield stream.piece_at([int(word[0]) for word in words], [word[1] for word in words])
        answer.next()


def streamed(job, answer):
    for line in job.lines:
        if line[0] == "go":
            yield Stream(job, job.command(line[5:]), int(line[3])).piece(0, answer.block(is_sample))
        else:
            yield put_out(Stream(job, job.command(line[3:]), int(line[1]), "word"), answer.block(is_out))
        answer.next()


def looped(job, answer):
    if job.lines:
        line = job.lines[0]
        yield put_out(Stream(job, job.command(line[12:]), int(line[2]), "word"), answer.block(is_out))


def played(job, answer):
    running = {}
    for line in job.lines:
        for sub, lines in itertools.groupby(answer.block(is_out), lambda text: int(text.split(None, 2)[1])):
            yield put_out(running[sub], list(lines))
        reply = answer.next()
        if reply[0] != "ok":
            continue
        time, key = int(line[0]), line[1]
        if key == "cmd":
            command = job.command(line[3:])
            form = "word" if job.subs[command.sub].is_output() else "level"
            running[command.sub] = Stream(job, command, time, form)
        elif key == "insn":
            yield from instructed(job, time, int(line[3]) if len(line) > 4 else 0, line[4:], reply)
        elif key in ("read", "release", "look") and int(line[3]) in running:
            stream = running[int(line[3])]
            if key == "look":
                yield stream.piece(stream.released + int(line[4]), [" ".join(reply[1:])])
                continue
            if key == "read" and reply[1] != "0":
                yield stream.piece(stream.released, answer.some(int(reply[1])))
            stream.released += int(reply[1])


def instructed(job, time, sub, words, reply):
    """The pieces of an instruction: single readings and the state of digital lines. A trigger is kept."""
    if words[0] == "inttrig":
        job.trigger(time, sub, int(words[1]))
        return
    if words[0] == "read":
        entries, codes = [words[1]], reply[2:]
    elif words[0] == "bits":
        entries = ["%d/0" % channel for channel in range(min(32, job.subs[sub].channels))]
        codes = [int(reply[3]) >> channel & 1 for channel in range(len(entries))]
    else:
        return
    command = job.command([sub, 0] + ["now:0"] * 5 + [",".join(entries)])
    texts = ["%d %s" % (at % len(entries), code) for at, code in enumerate(codes)]
    yield Stream(job, command, time, "code").piece_at([time] * len(texts), texts)


def read_files(names):
    """The job and the answer of a script's two arguments."""
    return jobs.Job(usage.text_of(names[0])), Answer(usage.text_of(names[1]))
