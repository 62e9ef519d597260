"""Every way in which a line is unreadable, among lines that are read though they look odd. A READ is under way all the time: 13 changes
nothing.

"lines of at most 200 bytes before byte 10", "Decimal to 4,294,967,295, no leading zero but 0 itself, one space between; setpoints are none
or more numbers", "A line of any other shape, an empty or longer one too, is no step and gives 13."; of badges, "above 65,535 giving 13"."""

from script import Script


def write_of_bytes(count):
    """A readable WRITE by panel 1 of just so many bytes: setpoints of one digit, and a last one that fills up."""
    line = b"W 1 1 0" + b" 7" * 95
    return line + b" " + b"1" * (count - len(line) - 1)


NOT_READABLE_BEFORE_AN_OPENING = [
    b"",
    b"O",
    b"O 2",
    b"O 2 2",
    b"R 0 1 5",
    b"W 1 1",
    b"W 1 1 65536 1200 30",
    b"! 0",
    b"! 0 0 0",
    b"+ 0",
    b"+ 0 0 0",
]

SHAPES = [
    # nothing, or spaces and other blanks where one space belongs
    b"",
    b" ",
    b"\t",
    b"\r",
    b" R 1 1",
    b"R 1 1 ",
    b"R  1 1",
    b"R 1  1",
    b"R\t1 1",
    b"R 1\t1",
    b"R 1 1\r",
    b"R 1 1\x0b",
    b"R 1\xa01",
    # words that no line begins with
    b"1",
    b"1 1",
    b"r 1 1",
    b"w 1 1 0 1200 30",
    b"o 2 2 2 1200 30",
    b"X 1 1",
    b"RR 1 1",
    b"READ 1 1",
    b"R1 1",
    b">1 0",
    b"!0 16",
    b"+0 16",
    b"!! 0 16",
    b"+! 0 16",
    b"* 0 16",
    b"? 0 16",
    b"# R 1 1",
    b"\xef\xbb\xbfR 1 1",
    b"\x00",
    b"\x00R 1 1",
    b"-",
    b"=",
    # too few numbers
    b"O",
    b"O ",
    b"O 2",
    b"O 2 2",
    b"W",
    b"W ",
    b"W 1",
    b"W 1 1",
    b"W 1 1 ",
    b"R",
    b"R ",
    b"R 1",
    b"R 1 ",
    b">",
    b"> 0",
    b"<",
    b"< 0",
    b"!",
    b"! ",
    b"! 0",
    b"! 0 ",
    b"+",
    b"+ ",
    b"+ 0",
    b"+ 0 ",
    # too many numbers
    b"R 1 1 5",
    b"R 1 1 1200 30",
    b"> 0 16 0",
    b"< 0 16 0",
    b"! 0 16 0",
    b"+ 0 16 0",
    # words that are no decimal numbers, or not below 2^32
    b"R 1 a",
    b"R a 1",
    b"R 1 1a",
    b"R 1 -1",
    b"R 1 +1",
    b"R 1 1.0",
    b"R 1 0x1",
    b"R 1 1e1",
    b"R 1,1",
    b"R 1 1,",
    b"R 1 01",
    b"R 01 1",
    b"R 1 00",
    b"R 00 1",
    b"> 0 016",
    b"! 0 016",
    b"+ 00 16",
    b"! +0 16",
    b"+ +0 16",
    b"! 0 4294967296",
    b"+ 4294967296 16",
    b"W 1 1 007 1200 30",
    b"W 1 1 0 007 30",
    b"O 2 2 2 0 00",
    b"R 1 4294967296",
    b"R 1 4294967297",
    b"R 4294967296 1",
    b"R 1 42949672951",
    b"R 1 9999999999",
    b"R 1 18446744073709551617",
    b"R 1 340282366920938463463374607431768211457",
    b"W 1 1 0 4294967296 30",
    b"O 2 2 2 1200 4294967296",
    # badges "above 65,535", whatever the rest of the line would be refused by
    b"W 1 1 65536 1200 30",
    b"W 1 1 65543 1200 30",
    b"W 1 1 131071 1200 30",
    b"W 1 1 4294901760 1200 30",
    b"W 1 1 4294967295 1200 30",
    b"W 1 1 4294967296 1200 30",
    b"W 1 1 65536",
    b"W 0 0 65536",
    b"W 2 1 65536 1200 30",
    # bytes that are no text at all
    b"R 1 1\x00",
    b"R 1 \x001",
    b"R\x001 1",
    b"R 1 \xb1",
    b"R 1 \xd9\xa1",
    b"\xd2 1 1",
    b"\xff\xff\xff",
]

TOO_LONG = [
    write_of_bytes(201),
    write_of_bytes(202),
    b"W 1 1 0" + b" 7" * 97,
    b"O 2 2 2" + b" 7" * 97,
    b"R 1 1" + b" " * 196,
    b" " * 201,
    b"x" * 201,
    b"x" * 255,
    b"x" * 256,
    b"x" * 457,
    # longer than the window of 65,536 bytes, and at its edges; the last holds readable steps, and is one line
    b"x" * 65535,
    b"x" * 65536,
    b"7" * 70001,
    b"\x00" * 131072,
    b"R 1 1 " * 12000,
]

# Lines that are steps, with the answer of a press of two stations and two panels whose panel 1 is idle.
ODD_AND_READABLE = [
    (b"R 1 0", "no 6"),
    (b"R 1 4294967295", "no 6"),
    (b"R 4294967295 1", "no 3"),
    (b"> 4294967295 4294967295", "no 3"),
    (b"! 4294967295 4294967295", "no 3"),
    (b"+ 4294967295 4294967295", "no 3"),
    (b"! 1 16", "no 14"),
    (b"+ 1 16", "no 15"),
    (b"+ 0 16", "no 15"),
    (b"W 1 1 0", "no 6"),
    (b"W 1 1 65535", "no 6"),
    (b"W 1 4 65535 1200 30", "no 6"),
    (b"O 2 2 2", "no 1"),
    (b"O 0 0 0", "no 1"),
    (b"O 4294967295 4294967295 4294967295 4294967295", "no 1"),
    # 197 to 200 bytes: up to 96 setpoints stand behind `W panel mask badge`, as behind `O method k p`
    (write_of_bytes(199), "no 6"),
    (write_of_bytes(200), "no 6"),
    (b"W 1 1 0" + b" 7" * 96, "no 6"),
    (b"O 2 2 2" + b" 7" * 95, "no 1"),
    (b"O 2 2 2" + b" 7" * 96, "no 1"),
]


def made():
    script = Script()
    for line in NOT_READABLE_BEFORE_AN_OPENING:
        script.say(line, "no 13")
    script.say(b"W 1 1 0" + b" 7" * 96, "no 2")
    script.say("O 2 2 2 0 4294967295", "ok")  # step 1: 0 itself and the greatest setpoint
    script.say("R 0 3", "ok")  # step 2
    for line in SHAPES:
        script.say(line, "no 13")
    script.say("> 0 16", "ok")  # step 3
    for line, answer in ODD_AND_READABLE:
        script.say(line, answer)
    for line in TOO_LONG:
        script.say(line, "no 13")
        # what stands behind a long line is read
        script.say("R 0 3", "no 5")
    script.say("< 0 16", "next")  # step 4
    script.say("> 0 0", "ok")  # step 5
    script.say("> 0 1", "ok")  # step 6
    script.say("< 0 1", "wait")  # step 7
    # "A line ends at byte 10 or at the end of the text"
    script.say("< 0 0", "read 0 0=0@0#0 1=4294967295@0#0")  # step 8
    script.register = ["R 0 0 2 8 0"]
    return script.stdin(last_byte=b""), script.stdout()
