"""Document 01's sample with 450 empty lines behind each of its lines, so that the answers are more than the 65,536 bytes that the program gathers: some are
written out while the text is played. An empty line "is no step and gives 13", and steps alone are counted: the other answers and the register are the sample's."""

from script import Script

EMPTY_BEHIND_EACH = 450


def made(sample):
    """Of the sample's text and what is printed for it."""
    lines = sample[0].decode("ascii").splitlines()
    printed = sample[1].decode("ascii").splitlines()
    script = Script()
    for line, answer in zip(lines, printed):
        script.say(line, answer.split(" ", 1)[1])
        for _ in range(EMPTY_BEHIND_EACH):
            script.say("", "no 13")
    script.register = printed[len(lines) :]
    return script.stdin(), script.stdout()
