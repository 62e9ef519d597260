"""A schedule as it is written, line by line, with the answer that document 01's words give each line."""


class Script:
    """Collects lines and answers, and counts the steps of the opening under way."""

    def __init__(self):
        self.lines = []
        self.answers = []
        self.register = []
        # "The opening is step 1; each accepted step adds 1."
        self.step = 0

    def say(self, line, answer):
        """Adds a line with its answer, and gives the step number behind it. Refused lines, `no` and a number, are no step."""
        line = line if isinstance(line, bytes) else line.encode("ascii")
        self.lines.append(line)
        self.answers.append(answer)
        if not answer.startswith("no "):
            self.step = 1 if line.startswith(b"O") else self.step + 1
        return self.step

    def stdin(self, last_byte=b"\n"):
        """The text; the last line may go without its byte 10."""
        return b"\n".join(self.lines) + last_byte

    def stdout(self):
        """Each line's number and answer, then the register."""
        numbered = [f"{number} {answer}" for number, answer in enumerate(self.answers, 1)]
        return ("\n".join(numbered + self.register) + "\n").encode("ascii")


def stations(mask):
    """The stations of a mask, rising: "bit i (worth 2^i) is station i"."""
    return [station for station in range(16) if mask >> station & 1]


def shown(tag, mask, values):
    """A READ's answer: its tag, then station=setpoint@tag#badge, stations rising; values are (setpoint, tag, badge), the last two of the
    WRITE that put it there, or 0"""
    return f"read {tag} " + " ".join("{}={}@{}#{}".format(station, *values[station]) for station in stations(mask))


def overlap(begin, end, writes):
    """ "A READ's overlap counts the … WRITEs that began before its end and ended after its begin."; writes are (begin, end), all finished"""
    return sum(1 for began, ended in writes if began < end and ended > begin)
