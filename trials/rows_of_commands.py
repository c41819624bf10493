"""Rows of the commands: words, what is read and the notices beside it in; bytes and a status out.

`trials/try_commands.py` runs them over a built program. What is to come of a row was worked out by hand from docs/RULES.md and
docs/FORMATS.md, or by another program where that is said, never from what the program writes. Each function is a table, as a
test is; each row of it has a name that says what it tries, and one or more runs, in turn in one folder that is new. Where what
is to come is told by another run, a function is a relation: it gives a name, what was found and what was wanted. The rows of
FILES run over each kind of kept file; between two runs of a row another hand may change the file.
"""
import dataclasses
import hashlib

TABLES, RELATIONS, FILES = {}, {}, {}
ODD_ROW, UNREADABLE = "a row of it is not as these programs write it", "a page or a row of it is spoiled, or the disk failed"
# The kinds of kept file: what makes one before our tables and behind them, if a row does not begin with a new folder, and the
# cause of a fault of what is read. By its trees is read what is exactly ours; anything else as a whole, by SQL.
KINDS = {
    "ours": ("", "", UNREADABLE),
    "with an index more": ("", "CREATE INDEX by_tolls ON spent (tolls)", ODD_ROW),
    "in pages of 512 bytes": ("PRAGMA page_size = 512", "", ODD_ROW),
}


@dataclasses.dataclass(frozen=True)
class Run:
    """A command: its words, what it writes, its status, what it reads, and the notices put into its folder, if any are; of a
    keeper's fault the cause, if it is another than the kind of file has."""

    words: tuple
    text: str
    status: int = 0
    given: str = ""
    notices: str | None = None
    cause: str | None = None


def table(rows):
    """Names a function as a table of rows."""
    TABLES[rows.__name__] = rows
    return rows


@dataclasses.dataclass(frozen=True)
class ByHand:
    """Statements that SQLite runs on the kept file. If it is not there, it is made first, with our tables of a version."""

    text: str
    version: int = 2


@dataclasses.dataclass(frozen=True)
class Turned:
    """The first byte of a page of the kept file is turned, so that it is spoiled."""

    page: int


@dataclasses.dataclass(frozen=True)
class Alone:
    """The log beside the kept file is taken away."""


def relation(rows):
    RELATIONS[rows.__name__] = rows
    return rows


def over_files(*kinds):
    """Names a function as a table whose rows run over each of these kinds of kept file, or over all."""
    def named(rows):
        FILES[rows.__name__] = rows, kinds or tuple(KINDS)
        return rows
    return named


def run(words, text, status=0, given="", notices=None):
    return Run(tuple(words.split()), text, status, given, notices)


def filled(*lines):
    """Lines filled up with -1 to fifteen fields."""
    return "".join(line + ",-1" * (14 - line.count(",")) + "\n" for line in lines)


def crowd(first, last, speed):
    """Vehicles at second 0 in segment 10 eastbound."""
    return filled(*(f"0,0,{vid},{speed},0,1,0,10,52800" for vid in range(first, last + 1)))


def told(last):
    """What a crowd is told."""
    return "".join(f"0,{vid},0,-1,0\n" for vid in range(1, last + 1))


ONE = filled("0,0,7,30,0,0,0,10,52800")
NOTICE = "0,7,0,-1,0\n"
ANSWERED = NOTICE + "# answered day 100 tuples 1 notices 1\n"
NONE = "# answered day 100 tuples 0 notices 0\n"

FIFTY_ONE = crowd(1, 51, 30)
COMES = filled("0,60,100,30,0,1,0,10,52800")
# A vehicle comes to the crowd a minute after it, leaves the crowded stretch, so that it is charged, then the road, comes back
# on another expressway, and asks.
LEAVES = COMES + filled("0,90,100,30,0,1,0,11,58080", "0,120,100,30,0,4,0,11,60000", "0,150,100,30,1,0,0,5,26400",
                        "2,160,100,-1,-1,-1,-1,-1,-1,9")
LEFT = told(51) + "0,100,60,30,2\n0,100,90,-1,0\n0,100,150,-1,0\n2,160,9,2\n"

# Two vehicles that stand at one place, eastbound in segment 10.
PAIR = filled(*(f"0,{time},{vid},0,0,2,0,10,55000" for time in (0, 30, 60, 90) for vid in (1, 2)))
TURNED = filled(*(f"0,{time},{vid},0,0,2,0,10,55000" for time in (90, 60, 30, 0) for vid in (2, 1)))
NEAR = filled("0,120,105,50,0,1,0,5,26400", "0,120,106,50,0,1,0,6,31680", "0,120,110,50,0,1,0,10,52800",
              "0,120,111,50,0,1,0,11,58080")
CLEARED = filled("0,150,2,30,0,2,0,10,55440", "0,180,201,50,0,1,0,10,52800", "0,240,202,50,0,1,0,10,52800")
ELSEWHERE = filled("0,130,2,50,1,0,0,3,15840", "0,180,3,50,0,1,0,10,52800", "0,240,4,50,0,1,0,10,52800")
ONE_LEAVES = PAIR + filled("0,90,2,30,0,2,0,10,55440", "0,120,3,50,0,1,0,10,52800")


@table
def lines_and_their_answers():
    """What `answers 100` says to lines."""
    rows = {
        "one report": (ONE, ANSWERED, 0),
        "one report without its LF": (ONE[:-1], ANSWERED, 0),
        "one report with CR LF": (ONE[:-1] + "\r\n", ANSWERED, 0),
        "a kind of -0": ("-" + ONE, ANSWERED, 0),
        "an empty day": ("", NONE, 0),
        "an empty line": ("\n", NONE, 0),
        "a CR alone": ("\r", NONE, 0),
        "an empty line with CR LF": ("\r\n", NONE, 0),
        "fourteen fields": (ONE[:-4] + "\n", "# refused line 1 fields 14\n", 2),
        "sixteen fields": (ONE[:-1] + ",0\n", "# refused line 1 fields 16\n", 2),
        "a speed of 101": (filled("0,0,7,101,0,0,0,10,52800"), "# refused line 1 range 4\n", 2),
        "the second 86,400": (filled("0,86400,7,30,0,0,0,10,52800"), "# refused line 1 range 2\n", 2),
        "a kind of 1": (filled("1,0,7,30,0,0,0,10,52800"), "# refused line 1 range 1\n", 2),
        "a day of the week of -2": (filled("0,0,7,30,0,0,0,10,52800,-1,-1,-1,-2"), "# refused line 1 range 13\n", 2),
        "a letter for a vehicle": (filled("0,0,x,30,0,0,0,10,52800"), "# refused line 1 number 3\n", 2),
        "a NUL for a vehicle": (filled("0,0,\0,30,0,0,0,10,52800"), "# refused line 1 number 3\n", 2),
        "a kind of a minus alone": (filled("-,0,7,30,0,0,0,10,52800"), "# refused line 1 number 1\n", 2),
        "a time of eleven digits": (filled("0,00000000000,7,30,0,0,0,10,52800"), "# refused line 1 number 2\n", 2),
        "two CR": (ONE[:-1] + "\r\r\n", "# refused line 1 number 15\n", 2),
        "200 bytes": ("1" * 200, "# refused line 1 fields 1\n", 2),
        "201 bytes": ("1" * 201, "# refused line 1 long\n", 2),
        "an exit behind an empty line": ("\n" + filled("0,0,7,30,0,4,0,10,52800"),
                                         "# answered day 100 tuples 1 notices 0\n", 0),
        "a wrong line behind an empty one": (ONE + "\nx\n", NOTICE + "# refused line 3 fields 1\n", 2),
        "a NUL alone": ("\0", "# refused line 1 fields 1\n", 2),
        "fifteen empty fields": ("," * 14, "# refused line 1 number 1\n", 2),
        "a vehicle of ten digits": (filled("0,0,9999999999,30,0,0,0,10,52800"), "# refused line 1 range 3\n", 2),
        "leading zeros": ("00," + ONE[2:], ANSWERED, 0),
        "a plus sign": ("+" + ONE, "# refused line 1 number 1\n", 2),
        "quotes": ('"0"' + ONE[1:], "# refused line 1 number 1\n", 2),
        "a blank behind the first comma": ("0, " + ONE[2:], "# refused line 1 number 2\n", 2),
        "tabs in place of commas": (ONE.replace(",", "\t"), "# refused line 1 fields 1\n", 2),
        "a byte order mark": ("\ufeff" + ONE, "# refused line 1 number 1\n", 2),
        "a line of column names": ("Type,Time,VID,Spd,XWay,Lane,Dir,Seg,Pos,QID,Sinit,Send,DOW,TOD,Day\n" + ONE,
                                   "# refused line 1 number 1\n", 2),
        "the greatest number in a field that is not used": (filled("0,0,7,30,0,0,0,10,52800,9999999999"), ANSWERED, 0),
        "a position of another segment": (filled("0,0,7,30,0,0,0,10,0"), ANSWERED, 0),
    }
    return {name: [run("answers 100", text, status, given)] for name, (given, text, status) in rows.items()}


@table
def words_and_their_ends():
    """What words say to one report, whose notice stands in the folder."""
    good = ["answers 100", "answers --late=5 100", "answers --late 5 100", "answers --late=5 -- 100", "answers 0000100",
            "answers 100 --workers 2 --turns=0", "answers 100 --wait 3600", "answers --wait=0 100 --late 5",
            "--wait 007 answers 100"]
    rows = {words: (words.split(), ANSWERED, 0) for words in good}
    rows["validate 100 --late=120"] = ("validate 100 --late=120".split(), "# agree notices 1\n", 0)
    rows["accidents --late 0"] = ("accidents --late 0".split(), "", 0)
    bad = ["answers", "answers 69", "answers 1000001", "answers 100 100", "answers 100 --late=", "answers 100 --late",
           "answers 100 --late -1", "answers 100 --late=121", "answers 100 --late 1 --late 1", "answers 100 --workers 65",
           "answers 100 --turns=-1", "answers -", "answers -- -5", "answers +100", "validate", "accidents 100", "import",
           "import 69", "import 100 --late 121", "past 69", "generate", "rehearse 1 2", "tariff 0 50 101 2",
           "tariff 256 50 40 2", "vehicle 7 9 8", "--help", "help", "--wait", "--wait 5", "answers 100 --wait",
           "answers 100 --wait 3601", "answers 100 --wait=", "answers 100 --wait -1", "answers 100 --wait 1 --wait 1",
           "answers -- 100 --wait 1", "answers 100 --late --wait 1", "answers 100 --waits 1", "renew 100 --wait x",
           "renew 100 --drop=1", "renew 100 --drop", "renew -- 100 --drop 1", "renew 69", "answer 100", "answers 100 \udcff"]
    rows |= {words: (words.split(), "# words\n", 1) for words in bad}
    rows |= {"no word": ([], "# words\n", 1), "an empty word": ([""], "# words\n", 1)}
    return {name: [Run(tuple(words), text, status, ONE, NOTICE)] for name, (words, text, status) in rows.items()}


@table
def asides_and_their_ends():
    """How one report compares with notices by `validate 100`."""
    agree, malformed = "# agree notices 1\n", "# differs line 1 wanted 0,7,0,-1,0 found malformed\n"
    no_more, second = "# differs line 1 wanted 0,7,0,-1,0 found none\n", "# differs line 2 wanted none found "
    rows = {
        "its notice": (NOTICE, agree, 0),
        "its notice without LF": (NOTICE[:-1], agree, 0),
        "its notice with CR LF": (NOTICE[:-1] + "\r\n", agree, 0),
        "the whole output of answers": (ANSWERED, agree, 0),
        "a line behind one that begins with #": (NOTICE + "#\nx\n", agree, 0),
        "another toll": ("0,7,0,-1,2\n", "# differs line 1 wanted 0,7,0,-1,0 found 0,7,0,-1,2\n", 7),
        "no notice": ("", no_more, 7),
        "its notice behind a #": ("# " + NOTICE, no_more, 7),
        "an alert more": (NOTICE + "1,0,7,10\n", second + "1,0,7,10\n", 7),
        "an empty line behind": (NOTICE + "\n", second + "malformed\n", 7),
        "an empty line before": ("\n" + NOTICE, malformed, 7),
        "a vehicle of 07": ("0,07,0,-1,0\n", malformed, 7),
        "201 bytes that begin with #": ("#" + "1" * 200 + "\n", malformed, 7),
    }
    return {name: [run("validate 100", text, status, ONE, notices)] for name, (notices, text, status) in rows.items()}


def by_any_workers(words, given, text):
    """A day is answered so by any number of workers, in rounds and in turns; its notices are these by the plain rules too, and
    recomputed in bulk."""
    agree = f"# agree notices {text.count(chr(10)) - 1}\n"
    answers = [run(words + more, text, 0, given) for more in ("", " --workers=3", " --workers 64 --turns 5")]
    return answers + [run(words.replace("answers", other), agree, 0, given, text) for other in ("validate", "audit")]


def refused_by_any_workers(words, given, text, status):
    return [run(words + more, text, status, given) for more in ("", " --workers=3", " --workers 64 --turns 5")]


@table
def tolls_of_the_road():
    """Crowds, and a vehicle that comes to them a minute later."""
    rows = {
        "fifty-one": (FIFTY_ONE + COMES, told(51) + "0,100,60,30,2\n# answered day 100 tuples 52 notices 52\n"),
        "fifty": (crowd(1, 50, 30) + COMES, told(50) + "0,100,60,30,0\n# answered day 100 tuples 51 notices 51\n"),
        "at forty": (crowd(1, 51, 40) + COMES, told(51) + "0,100,60,40,0\n# answered day 100 tuples 52 notices 52\n"),
        "thirty-nine and eleven twelfths": (crowd(1, 55, 40) + crowd(56, 60, 39) + COMES,
                                            told(60) + "0,100,60,39,200\n# answered day 100 tuples 61 notices 61\n"),
        "charged on leaving": (FIFTY_ONE + LEAVES, LEFT + "# answered day 100 tuples 56 notices 55\n"),
        "exit is free": (
            FIFTY_ONE + COMES + filled("0,90,100,30,0,4,0,10,54120", "0,120,100,30,0,0,0,10,54120",
                                       "2,130,100,-1,-1,-1,-1,-1,-1,9"),
            told(51) + "0,100,60,30,2\n0,100,120,30,0\n2,130,9,0\n# answered day 100 tuples 55 notices 54\n"),
        "balance at its position": (
            FIFTY_ONE + COMES + filled("2,90,100,-1,-1,-1,-1,-1,-1,1", "0,90,100,30,0,1,0,11,58080",
                                       "2,90,100,-1,-1,-1,-1,-1,-1,2"),
            told(51) + "0,100,60,30,2\n2,90,1,0\n0,100,90,-1,0\n2,90,2,2\n# answered day 100 tuples 55 notices 55\n"),
    }
    return {name: by_any_workers("answers 100", given, text) for name, (given, text) in rows.items()}


@table
def averages_requests_and_order():
    """Averages of the minutes before, requests, and lines that come late."""
    late = filled("0,30,1,30,0,1,0,10,52800", "2,0,1,-1,-1,-1,-1,-1,-1,9", "0,0,2,30,0,1,0,10,52800")
    turned = filled("0,10,1,30,0,1,0,10,52800", "0,9,3,30,0,1,0,10,52800")
    refused, words = "# refused line 2 late 10 9\n", "answers 100"
    return {
        "mean of means": by_any_workers(
            words, filled("0,0,1,10,0,1,0,10,52800", "0,0,2,90,0,1,0,10,52800", "0,30,1,20,0,1,0,10,53240",
                          "0,60,3,50,0,1,0,10,52800"),
            "0,1,0,-1,0\n0,2,0,-1,0\n0,3,60,52,0\n# answered day 100 tuples 4 notices 3\n"),
        "empty minutes left out": by_any_workers(
            words, filled("0,0,1,20,0,1,0,10,52800", "0,180,2,31,0,1,0,10,52800", "0,300,3,50,0,1,0,10,52800"),
            "0,1,0,-1,0\n0,2,180,20,0\n0,3,300,25,0\n# answered day 100 tuples 3 notices 3\n"),
        "out of the window": by_any_workers(
            words, filled("0,0,1,20,0,1,0,10,52800", "0,360,3,50,0,1,0,10,52800"),
            "0,1,0,-1,0\n0,3,360,-1,0\n# answered day 100 tuples 2 notices 2\n"),
        "two earlier days, and a travel time between": by_any_workers(
            words, filled("3,0,7,-1,0,-1,-1,-1,-1,1,-1,-1,-1,-1,69", "4,0", "3,0,7,-1,0,-1,-1,-1,-1,2,-1,-1,-1,-1,2"),
            "3,0,1,0\n3,0,2,0\n# answered day 100 tuples 3 notices 2\n"),
        "an earlier day": by_any_workers(words, filled("3,5,7,-1,0,-1,-1,-1,-1,1,-1,-1,-1,-1,69"),
                                         "3,5,1,0\n# answered day 100 tuples 1 notices 1\n"),
        "a travel time": by_any_workers(words, filled("4,0"), "# answered day 100 tuples 1 notices 0\n"),
        "a second late": refused_by_any_workers(
            words, filled("0,10,1,30,0,1,0,10,52800", "0,10,2,30,0,1,0,10,52800", "0,9,3,30,0,1,0,10,52800"),
            "0,1,10,-1,0\n0,2,10,-1,0\n# refused line 3 late 10 9\n", 2),
        "a fifth report in a minute": refused_by_any_workers(
            words, filled(*(f"0,{time},1,30,0,1,0,10,52800" for time in (0, 10, 20, 30, 40))),
            "0,1,0,-1,0\n# refused line 5 too-often 1 1\n", 2),
        "thirty seconds late, where thirty are allowed": by_any_workers(
            words + " --late 30", late, "2,0,9,0\n0,2,0,-1,0\n0,1,30,-1,0\n# answered day 100 tuples 3 notices 3\n"),
        "thirty seconds late, where 29 are allowed": refused_by_any_workers(
            words + " --late 29", late, "0,1,30,-1,0\n# refused line 2 late 30 0\n", 2),
        "a lateness of 121": refused_by_any_workers(words + " --late 121", filled("0,30,1,30,0,1,0,10,52800"), "# words\n", 1),
        "accidents of a line that is late": [run("accidents", refused, 2, turned)],
        "accidents of a line that is late and may be": [run("accidents --late 1", "", 0, turned)],
        "validate of a line that is late": [run("validate 100", refused, 2, turned)],
    }


@table
def accidents_of_the_road():
    """Vehicles that stand, those that come near, and the log."""
    west = filled(*(f"0,{time},{vid},0,0,2,1,10,55000" for time in (0, 30, 60, 90) for vid in (1, 2)))
    end = filled(*(f"0,{time},{vid},0,0,2,1,0,100" for time in (0, 30, 60, 90) for vid in (1, 2)))
    near = ("0,105,120,-1,0\n1,120,106,10\n0,106,120,-1,0\n1,120,110,10\n0,110,120,0,0\n0,111,120,-1,0\n"
            "# answered day 100 tuples 12 notices 8\n")
    words, pair = "answers 100", "0,1,0,-1,0\n0,2,0,-1,0\n"
    broken = filled("0,0,1,0,0,2,0,10,55000", "0,0,2,0,0,2,0,10,55000", "0,30,1,0,0,2,0,10,55000", "0,30,2,0,0,2,0,10,55000",
                    "0,60,1,0,0,2,0,10,55000", "0,60,2,50,1,1,0,3,15840", "0,90,1,0,0,2,0,10,55000", "0,90,2,0,0,2,0,10,55000",
                    "0,120,2,0,0,2,0,10,55000", "0,180,3,50,0,1,0,10,52800")
    return {
        "the pair eastbound": by_any_workers(words, PAIR + NEAR, pair + near),
        "the pair turned round, 90 seconds late": by_any_workers(words + " --late 90", TURNED + NEAR,
                                                                 "0,2,0,-1,0\n0,1,0,-1,0\n" + near),
        "the log of the pair eastbound": [run("accidents", "90,-1,0,0,2,10,55000\n", 0, PAIR + NEAR)],
        "the pair clears": by_any_workers(
            words, PAIR + CLEARED,
            pair + "1,180,201,10\n0,201,180,10,0\n0,202,240,20,0\n# answered day 100 tuples 11 notices 5\n"),
        "the log of the pair that clears": [run("accidents", "90,149,0,0,2,10,55000\n", 0, PAIR + CLEARED)],
        "the pair westbound": by_any_workers(
            words, west + filled("0,120,109,50,0,1,1,9,47520", "0,120,110,50,0,1,1,10,52800", "0,120,114,50,0,1,1,14,73920",
                                 "0,120,115,50,0,1,1,15,79200"),
            pair + "0,109,120,-1,0\n1,120,110,10\n0,110,120,0,0\n1,120,114,10\n0,114,120,-1,0\n0,115,120,-1,0\n"
            "# answered day 100 tuples 12 notices 8\n"),
        "the pair at the road's end": by_any_workers(
            words, end + filled("0,120,104,50,0,1,1,4,21120", "0,120,105,50,0,1,1,5,26400", "0,120,106,50,0,1,0,0,50"),
            pair + "1,120,104,0\n0,104,120,-1,0\n0,105,120,-1,0\n0,106,120,-1,0\n# answered day 100 tuples 11 notices 6\n"),
        "one of two leaves in the same second": by_any_workers(
            words, ONE_LEAVES, pair + "0,3,120,2,0\n# answered day 100 tuples 10 notices 3\n"),
        "the log where one leaves in the same second": [run("accidents", "", 0, ONE_LEAVES)],
        "stopped on another way": by_any_workers(
            words, PAIR + ELSEWHERE,
            pair + "0,2,130,-1,0\n1,180,3,10\n0,3,180,0,0\n0,4,240,16,0\n# answered day 100 tuples 11 notices 6\n"),
        "stops broken by another way": by_any_workers(
            words, broken, pair + "0,2,60,-1,0\n0,2,90,0,0\n0,3,180,0,0\n# answered day 100 tuples 10 notices 5\n"),
    }


@table
def choices_of_the_office():
    """Where the benchmark leaves a choice: lane 4, silent vehicles, more than two that stand."""
    words, stand = "answers 100", "0,{},{},0,0,2,0,10,55000"
    three = filled(*(stand.format(time, vid) for time, vid in sorted(
        [(time, vid) for time in (0, 30, 60, 90) for vid in (1, 2)] + [(time, 3) for time in (10, 40, 70, 100)])),
        "0,130,1,30,0,2,0,10,55440", "0,160,2,30,0,2,0,10,55440")
    return {
        "one of fifty-one in lane 4": by_any_workers(
            words, crowd(1, 50, 30) + filled("0,0,51,30,0,4,0,10,52800") + COMES,
            told(50) + "0,100,60,30,2\n# answered day 100 tuples 52 notices 51\n"),
        "charged by lane 4 of another segment": by_any_workers(
            words, FIFTY_ONE + COMES + filled("0,90,100,30,0,4,0,11,58080", "2,100,100,-1,-1,-1,-1,-1,-1,9"),
            told(51) + "0,100,60,30,2\n2,100,9,2\n# answered day 100 tuples 54 notices 53\n"),
        "two that never report again": by_any_workers(
            words, PAIR + filled("0,3600,3,50,0,1,0,10,52800"),
            "0,1,0,-1,0\n0,2,0,-1,0\n1,3600,3,10\n0,3,3600,-1,0\n# answered day 100 tuples 9 notices 4\n"),
        "the log of three, of which two leave": [run("accidents", "90,159,0,0,2,10,55000\n", 0, three)],
    }


# The notices of "stopped on another way", and the same without the fourth.
SIX = ["0,1,0,-1,0", "0,2,0,-1,0", "0,2,130,-1,0", "1,180,3,10", "0,3,180,0,0", "0,4,240,16,0"]
ALL = "".join(line + "\n" for line in SIX)
SHORT = "".join(line + "\n" for line in SIX[:3] + SIX[4:])
# The first notice, a line of 201 bytes and nothing behind it.
LONG = SIX[0] + "\n" + "x" * 201 + "\n"
ALL_MISSING = "".join(f"1 missing {line}\n" for line in SIX) + "# differs line 1 wanted 0,1,0,-1,0 found none\n"


def audited(rows):
    """Each row is an audit of "stopped on another way": its words, the notices beside it, the text and the status."""
    return {name: [run(words, text, status, PAIR + ELSEWHERE, notices)] for name, (words, notices, text, status) in rows.items()}


def lines(*of):
    return "".join(line + "\n" for line in of)


@table
def audits_by_shards():
    """Notices compared with those of a day that is recomputed in bulk."""
    words = "audit 100 --shards 2 --workers 3"
    return audited({
        "all six by two shards": (words, ALL, "# agree notices 6\n", 0),
        "without the fourth by two shards": (words, SHORT, "# differs line 4 wanted 1,180,3,10 found 0,3,180,0,0\n", 7),
    })


@table
def audits_and_their_ends():
    """Lateness, refused lines and words: as of `validate`."""
    late = filled("0,30,1,30,0,1,0,10,52800", "0,0,2,30,0,1,0,10,52800")
    notices = "0,2,0,-1,0\n0,1,30,-1,0\n"
    return {
        "audit of one report": [run("audit 100", "# agree notices 1\n", 0, ONE, NOTICE)],
        "audit of half a minute late": [run("audit --late=30 100 --shards=64", "# agree notices 2\n", 0, late, notices)],
        "audit of a second too late": [run("audit 100 --late 29", "# refused line 2 late 30 0\n", 2, late, notices)],
        "audit by no shard": [run("audit 100 --shards 0", "# words\n", 1, ONE, NOTICE)],
    }


@table
def differences_are_told():
    """The differences that an audit tells before its closing line: one missing, one too many, another one, and more of these."""
    ten = "audit 100 --show 10 --shards=2"
    fourth = "# differs line 4 wanted 1,180,3,10 found "
    second = "2 wanted 0,2,0,-1,0 found malformed\n# differs line 2 wanted 0,2,0,-1,0 found malformed\n"
    return audited({
        "shown: none": (ten, ALL, "# agree notices 6\n", 0),
        "shown: the fourth missing": (ten, SHORT, "4 missing 1,180,3,10\n" + fourth + "0,3,180,0,0\n", 7),
        "shown: none but the closing line": ("audit 100 --show 1 --shards=2", SHORT, fourth + "0,3,180,0,0\n", 7),
        "shown: one too many behind the third": (
            ten, lines(*SIX[:3], "0,9,130,-1,0", *SIX[3:]), "4 additional 0,9,130,-1,0\n" + fourth + "0,9,130,-1,0\n", 7),
        "shown: one too many behind the first": (
            ten, lines(SIX[0], "0,9,0,-1,0", *SIX[1:]),
            "2 additional 0,9,0,-1,0\n# differs line 2 wanted 0,2,0,-1,0 found 0,9,0,-1,0\n", 7),
        "shown: another toll in the second": (
            ten, lines(SIX[0], "0,2,0,-1,7", *SIX[2:]),
            "2 wanted 0,2,0,-1,0 found 0,2,0,-1,7\n# differs line 2 wanted 0,2,0,-1,0 found 0,2,0,-1,7\n", 7),
        "shown: x in place of the second": (ten, lines(SIX[0], "x", *SIX[2:]), second, 7),
        "shown: 201 bytes in place of the second": (ten, LONG, second, 7),
        "shown: the first second missing": (
            ten, lines(*SIX[2:]),
            "1 missing 0,1,0,-1,0\n1 missing 0,2,0,-1,0\n# differs line 1 wanted 0,1,0,-1,0 found 0,2,130,-1,0\n", 7),
        "shown: the last two missing": (
            ten, lines(*SIX[:4]),
            "5 missing 0,3,180,0,0\n5 missing 0,4,240,16,0\n# differs line 5 wanted 0,3,180,0,0 found none\n", 7),
        "shown: one too many behind the last": (
            ten, lines(*SIX, "0,5,300,-1,0"),
            "7 additional 0,5,300,-1,0\n# differs line 7 wanted none found 0,5,300,-1,0\n", 7),
        "shown: one missing, one changed, one too many": (
            ten, lines(SIX[1], "0,2,130,-1,9", *SIX[3:], SIX[5]),
            "1 missing 0,1,0,-1,0\n2 wanted 0,2,130,-1,0 found 0,2,130,-1,9\n6 additional 0,4,240,16,0\n"
            "# differs line 1 wanted 0,1,0,-1,0 found 0,2,0,-1,0\n", 7),
        "shown: two of three": (
            "audit 100 --show 2 --shards=2", "x\nx\nx\n",
            "1 wanted 0,1,0,-1,0 found malformed\n2 wanted 0,2,0,-1,0 found malformed\n"
            "# differs line 1 wanted 0,1,0,-1,0 found malformed\n", 7),
        "shown: all missing": ("audit 100 --show 1000 --shards=2", "# a comment\n", ALL_MISSING, 7),
    })


@table
def seconds_in_any_order():
    """Audits where the notices of one second may stand in any order."""
    swapped = lines(SIX[1], SIX[0], SIX[2], SIX[4], SIX[3], SIX[5])
    another = lines(*SIX[:3], "0,9,180,-1,0", *SIX[4:])
    fourth = "# differs line 4 wanted none found 0,9,180,-1,0\n"
    return audited({
        "any order: all six": ("audit 100 --any-order", ALL, "# agree notices 6\n", 0),
        "any order: two seconds the other way round": ("audit 100 --any-order", swapped, "# agree notices 6\n", 0),
        "their order: two seconds the other way round": (
            "audit 100", swapped, "# differs line 1 wanted 0,1,0,-1,0 found 0,2,0,-1,0\n", 7),
        "any order: the second behind a later one": (
            "audit 100 --any-order --show 10", lines(SIX[0], SIX[2], SIX[1], *SIX[3:]),
            "2 missing 0,2,0,-1,0\n3 additional 0,2,0,-1,0\n# differs line 2 wanted 0,2,0,-1,0 found 0,2,130,-1,0\n", 7),
        "any order: another in place of the fourth": (
            "audit 100 --show=10 --any-order", another, "4 additional 0,9,180,-1,0\n6 missing 1,180,3,10\n" + fourth, 7),
        "any order: another in place of the fourth, not shown": ("audit 100 --any-order", another, fourth, 7),
        "any order: the first twice": (
            "audit 100 --any-order --show 2 --shards 2", lines(SIX[0], *SIX),
            "2 additional 0,1,0,-1,0\n# differs line 2 wanted none found 0,1,0,-1,0\n", 7),
        "any order: one too many behind the last": (
            "audit 100 --any-order --show 2", lines(*SIX, "0,5,300,-1,0"),
            "7 additional 0,5,300,-1,0\n# differs line 7 wanted none found 0,5,300,-1,0\n", 7),
        "any order: 201 bytes in place of the second": (
            "audit 100 --any-order --show 10", LONG, "2 additional malformed\n# differs line 2 wanted none found malformed\n", 7),
        "any order: all missing": ("audit 100 --any-order --show 10", "# a comment\n", ALL_MISSING, 7),
        "any order: the first two of all missing": (
            "audit 100 --any-order --show 2", "",
            "1 missing 0,1,0,-1,0\n1 missing 0,2,0,-1,0\n# differs line 1 wanted 0,1,0,-1,0 found none\n", 7),
    })


@table
def each_refused_line_is_named():
    """Days whose refused lines are all named, and those that are good are counted."""
    good = filled("0,0,7,30,0,0,0,10,52800")
    # one field, a minute late, a segment of 100, and a lane that is no number; those refused change nothing
    mixed = (good + "x\n" + filled("0,60,7,30,0,0,0,10,52800", "0,0,8,30,0,0,0,10,52800") + "\n"
             + filled("0,300,7,30,0,0,0,100,52800", "0,300,7,30,0,lane,0,10,52800", "0,60,9,30,0,0,0,10,52800")[:-1] + "\r\n"
             + filled("4,60"))
    # a vehicle's fifth and sixth report in a minute, and its next
    often = 4 * good + 2 * filled("0,30,7,30,0,0,0,10,52800") + filled("0,10,8,30,0,0,0,10,52800", "0,60,7,30,0,0,0,10,52800")[:-1]
    rest = "6 range 8\n7 number 6\n# checked day "
    rows = {
        "check of an empty day": ("check 100", "", "# checked day 100 good 0 refused 0\n", 0),
        "check of one report": ("check 100", ONE, "# checked day 100 good 1 refused 0\n", 0),
        "check of empty lines": ("check 100", "\n\r\n\r", "# checked day 100 good 3 refused 0\n", 0),
        "mixed": ("check 100", mixed, "2 fields 1\n4 late 60 0\n" + rest + "100 good 5 refused 4\n", 2),
        "mixed, where it is not late": ("check --late=60 70", mixed, "2 fields 1\n" + rest + "70 good 6 refused 3\n", 2),
        "mixed, a second too late": (
            "check 1000000 --late 59", mixed, "2 fields 1\n4 late 60 0\n" + rest + "1000000 good 5 refused 4\n", 2),
        "often": ("check 100", often, "5 too-often 7 1\n6 too-often 7 1\n# checked day 100 good 6 refused 2\n", 2),
        "check without a day": ("check", mixed, "# words\n", 1),
        "check 69": ("check 69", mixed, "# words\n", 1),
        "check by a lateness of 121": ("check 100 --late 121", mixed, "# words\n", 1),
        "check by workers": ("check 100 --workers 2", mixed, "# words\n", 1),
    }
    return {name: [run(words, text, status, given)] for name, (words, given, text, status) in rows.items()}


@table
def many_refused_lines():
    """Lines of 200, 201 and 100,000 bytes between good ones, and one of 202 behind them; and more lines than are named."""
    long = "".join(ONE + "1" * length + "\n" for length in (200, 201, 100_000)) + ONE + "0" * 202
    named = "".join(f"{line} fields 2\n" for line in range(1, 1001))
    return {
        "behind a long line more is read": [
            run("check 100", "2 fields 1\n4 long\n6 long\n8 long\n# checked day 100 good 4 refused 4\n", 2, long)],
        "a thousand lines are named": [
            run("check 100", named + "# checked day 100 good 1 refused 1001\n", 2, 1001 * "x,y\n" + ONE)],
    }


# The history of base 100 with amounts of the days 99, 98, 97, 95, 94 and 31, the one of day 97 not kept.
SEVERAL = "9,1,3,4\n7,69,0,28\n7,1,0,5\n7,2,3,10\n2147483647,5,255,9999999999\n2147483647,6,255,9999999999\n7,3,0,0\n"
PAST = run("past 100", "# past base 100 rows 6\n", 0, SEVERAL)
STORED = "# stored day 100 tuples 56 notices 55 total 2\n"
# After that history day 100 is imported, on which vehicle 100 is charged 2, and day 102, of one report.
TWO_DAYS = [PAST, run("import 100", LEFT + STORED, 0, FIFTY_ONE + LEAVES),
            run("import 102", NOTICE + "# stored day 102 tuples 1 notices 1 total 0\n", 0, ONE)]


@table
def days_that_are_kept():
    """An office that keeps nothing, one with a history alone, and one with days, whose digests are by another program."""
    return {
        "days of nothing, then of a history": [run("days", "# days 0 last 0\n"), PAST, run("days", "# days 0 last 99\n")],
        "days of two days": [*TWO_DAYS, run("days", "day 100 tuples 56 notices 55 total 2 digest 666b265381326509\n"
                                                    "day 102 tuples 1 notices 1 total 0 digest fc2f0b2e7199ba75\n"
                                                    "# days 2 last 102\n")],
    }


@table
def charges_of_some_days():
    """What was charged on some days, before and behind all that is kept too."""
    rows = {
        "1 1000000": "7,0,33\n7,3,10\n9,3,4\n100,0,2\n2147483647,255,19999999998\n",
        "31 31": "7,0,28\n",
        "32 93": "",
        "94 95": "2147483647,255,19999999998\n",
        "99 100": "7,0,5\n9,3,4\n100,0,2\n",
        "100 100": "100,0,2\n",
        "101 1000000": "",
        "1 30": "",
    }
    listed = {f"charges {days}": [*TWO_DAYS, run(f"charges {days}", "vid,xway,tolls\n" + text)] for days, text in rows.items()}
    return {"charges of nothing": [run("charges 1 1000000", "vid,xway,tolls\n")]} | listed


@table
def a_day_by_any_backlog():
    """No text and nothing that is kept depends on how many tuples may wait."""
    again = run("import 100", STORED.replace("stored", "already"), 0, FIFTY_ONE + LEAVES)
    rows = {f"a backlog of {most}": [run(f"import 100 --backlog {most} --workers 2", LEFT + STORED, 0, FIFTY_ONE + LEAVES), again]
            for most in (1, 2, 7, 55, 56, 57, 65536)}
    return rows | {"one line, and a backlog of one": [run("answers --backlog=1 100", ANSWERED, 0, ONE)]}


# The digests of no byte and of `a`.
EMPTY = "e3b0c44298fc1c149afbf4c8996fb92427ae41e4649b934ca495991b7852b855"
OF_ABC = "ca978112ca1bbdcafac231b39a23dc4da786eff8147c4e72b9807785afee48bb"


def statement(counts, digest, notices, tariffs, total):
    """What `day 100` tells of a day on which expressway 0 alone was charged, if any was."""
    size, tuples, told_of = counts
    of_ways = f"xway   0 {total:20}\n" if total else ""
    return (f"day 100\ndigest {digest}\nbytes {size}\ntuples {tuples}\nnotices {told_of}\nnotices-digest {notices}\n"
            f"tariffs {tariffs}\ntotal {total}\n" + of_ways)


@over_files()
def what_is_kept_by_commands():
    """What commands keep and tell of it, one after the other."""
    nothing = statement((0, 0, 0), EMPTY, EMPTY, EMPTY, 0)
    charged = FIFTY_ONE + LEAVES
    day = "666b2653813265096661d01ac7f9fe12bfaa7a34dbef27d29f3c255b8d8c59df"
    late = filled("0,10,1,30,0,1,0,10,52800", "0,10,2,30,0,1,0,10,52800", "0,9,3,30,0,1,0,10,52800")
    turned = filled("0,30,1,30,0,1,0,10,52800", "2,0,1,-1,-1,-1,-1,-1,-1,9", "0,0,2,30,0,1,0,10,52800")
    asking = filled("3,0,7,-1,0,-1,-1,-1,-1,1,-1,-1,-1,-1,69", "4,0", "3,0,7,-1,0,-1,-1,-1,-1,2,-1,-1,-1,-1,2")
    two = "7,69,0,28\n7,1,0,5\n"
    fivefold = LEFT.replace("30,2\n", "30,5\n").replace("9,2\n", "9,5\n")
    return {
        "a day without a line, and what comes behind it": [
            run("day 100", "# no day 100\n", 3),
            run("export 100", "# no day 100\n", 3),
            run("vehicle 7 31 99", "vehicle 7 days 31 to 99\ntotal                          0\n"),
            run("import 100", "# stored day 100 tuples 0 notices 0 total 0\n"),
            run("day 100", nothing),
            run("export 100", "vid,day,xway,tolls\n"),
            run("import 100", "# already day 100 tuples 0 notices 0 total 0\n"),
            run("import 100", f"# differs day 100 kept {EMPTY} found {OF_ABC}\n", 3, "abc"),
            run("import 99", "# passed day 99 last 100\n", 3, ONE),
            run("day 99", "# no day 99\n", 3),
            run("answers 99", NOTICE + "# answered day 99 tuples 1 notices 1\n", 0, ONE),
            run("day 100", nothing),
            run("past 100", "# past late last 100\n", 3, two),
        ],
        "a charge that is kept": [
            run("import 100", LEFT + STORED, 0, charged),
            run("day 100", statement((2410, 56, 55), day, "59b645c06264fdf5f9167ccefa44268cbcc627bbbe2e29804619ebc7dc3810d3",
                                     EMPTY, 2)),
            run("export 100", "vid,day,xway,tolls\n100,100,0,2\n"),
            run("vehicle 100 100 100", "vehicle 100 days 100 to 100\n    100   0                    2\n"
                                       "total                          2\n"),
            run("import 100", STORED.replace("stored", "already"), 0, charged),
        ],
        "a history, and what comes behind it": [
            run("past 100", "# refused line 2 fields 3\n", 2, "7,69,0,28\n7,1,0\n"),
            run("past 100", "# refused line 3 twice\n", 2, "7,1,0,0\n\n7,01,-0,5\n"),
            run("past 100", "# past base 100 rows 2\n", 0, two),
            run("past 100", "# already past base 100 rows 2\n", 0, two),
            run("answers 100", "3,0,1,28\n3,0,2,0\n# answered day 100 tuples 3 notices 2\n", 0, asking),
            run("vehicle 7 31 99", "vehicle 7 days 31 to 99\n     31   0                   28\n     99   0                    5\n"
                                   "total                         33\n"),
            run("day 99", "# no day 99\n", 3),
            run("export 99", "# no day 99\n", 3),
            run("import 99", "# passed day 99 last 99\n", 3),
            run("past 101", "# past kept base 100\n", 3, two),
            run("past 100", "# differs past 100 kept 2f012d339c603aca9d96284ce171a92752efb925ace45b1aa77b7d1498a2ceef"
                            f" found {EMPTY}\n", 3),
            run("import 100", "3,0,1,28\n3,0,2,0\n# stored day 100 tuples 3 notices 2 total 0\n", 0, asking),
        ],
        "a refused day, and a tariff that comes and goes": [
            run("import 100", "0,1,10,-1,0\n0,2,10,-1,0\n# refused line 3 late 10 9\n", 2, late),
            run("day 100", "# no day 100\n", 3),
            run("tariff 0 50 40 5", "# tariff xway 0 crowd 50 speed 40 factor 5\n"),
            run("tariffs", "0,50,40,5\n"),
            run("import 100", fivefold + STORED.replace("total 2", "total 5"), 0, charged),
            run("day 100", statement((2410, 56, 55), day, "d0a4725564618980ca7e8f0fce9a9362227b7cc2739d7db03846e608bde7deea",
                                     "1c59c938c844f167fdb7698ee3fb002b45e6543dc91528ad8b5699d947b89427", 5)),
            run("tariff 0 50 40 2", "# tariff xway 0 crowd 50 speed 40 factor 2\n"),
            run("tariffs", ""),
            run("import 100", STORED.replace("stored", "already").replace("total 2", "total 5"), 0, charged),
        ],
        "lines that come late, too late and in time": [
            run("import 100 --late 29", "0,1,30,-1,0\n# refused line 2 late 30 0\n", 2, turned),
            run("import 100 --late 30",
                "2,0,9,0\n0,2,0,-1,0\n0,1,30,-1,0\n# stored day 100 tuples 3 notices 3 total 0\n", 0, turned),
            run("export 100", "vid,day,xway,tolls\n"),
        ],
    }


# A history of vehicle 7, and day 100 with an amount each of the vehicles 7 and 8, as another hand puts them.
OF_7 = "7,69,0,28\n7,1,0,5\n"
OF_7_DIGEST = hashlib.sha256(OF_7.encode()).hexdigest()
HISTORY_BY_HAND = f"""INSERT INTO past VALUES (1, 100, x'{OF_7_DIGEST}', 18, 2);
INSERT INTO spent VALUES (31, 7, 0, 28), (99, 7, 0, 5);"""
DAY_BY_HAND = f"""INSERT INTO days VALUES (100, x'{EMPTY}', 40, 2, 1, x'{EMPTY}', 5);
INSERT INTO spent VALUES (100, 8, 1, 2), (100, 7, 0, 3);"""
SEAL_BY_HAND = f"INSERT INTO day_tariffs VALUES (100, x'{EMPTY}');"
BOTH_BY_HAND = HISTORY_BY_HAND + DAY_BY_HAND + SEAL_BY_HAND
KEPT_DAY = statement((40, 2, 1), EMPTY, EMPTY, EMPTY, 3).replace("total 3", "total 5") + f"xway   1 {2:20}\n"
OF_100 = "3,0,7,-1,0,-1,-1,-1,-1,1,-1,-1,-1,-1,69\n"
OF_101 = "".join(f"3,0,{vid},-1,{xway},-1,-1,-1,-1,{qid},-1,-1,-1,-1,{back}\n"
                 for qid, (vid, xway, back) in enumerate([(7, 0, 1), (7, 0, 2), (7, 0, 3), (8, 1, 1)]))
# Each question that a command may ask of what is kept, with its answer of these; by name, so that a row can change some.
ASKED = {
    "days": run("days", f"day 100 tuples 2 notices 1 total 5 digest {EMPTY[:16]}\n# days 1 last 100\n"),
    "day": run("day 100", KEPT_DAY),
    "export": run("export 100", "vid,day,xway,tolls\n7,100,0,3\n8,100,1,2\n"),
    "past": run("past 100", "# already past base 100 rows 2\n", 0, OF_7),
    "passed": run("import 99", "# passed day 99 last 100\n", 3),
    "oldest": run("answers 100", "3,0,1,28\n# answered day 100 tuples 1 notices 1\n", 0, OF_100),
    "amounts": run("answers 101", "3,0,0,3\n3,0,1,5\n3,0,2,0\n3,0,3,2\n# answered day 101 tuples 4 notices 4\n", 0, OF_101),
    "charges": run("charges 1 1000000", "vid,xway,tolls\n7,0,36\n8,1,2\n"),
    "vehicle": run("vehicle 7 31 100", f"vehicle 7 days 31 to 100\n     31   0 {28:20}\n     99   0 {5:20}\n    100   0 {3:20}\n"
                                       f"total{36:27}\n"),
    "other vehicle": run("vehicle 8 31 100", f"vehicle 8 days 31 to 100\n    100   1 {2:20}\ntotal{2:27}\n"),
    "tariffs": run("tariffs", ""),
}


# What asks for the record of the day, for its amounts, for one amount, and for the last day.
OF_THE_DAY, OF_ITS_ROWS = ("days", "day", "export", "charges"), ("day", "export", "charges")
OF_AMOUNTS, OF_THE_LAST = ("oldest", "amounts"), ("days", "passed", "charges")


def asked(*faults, cause=None, **others):
    """The questions, of which some are keeper's faults and some have another answer."""
    changed = {name: dataclasses.replace(ASKED[name], text="# keeper fault\n", status=6, cause=cause) for name in faults}
    return list((ASKED | changed | {name.replace("_", " "): run for name, run in others.items()}).values())


@over_files()
def what_another_hand_put():
    """What commands tell of a history and a day that another hand put, and of rows that no command writes."""
    many = sorted([(vid, 0, 3) for vid in range(7, 1031)] + [(vid, 1, 2) for vid in range(8, 1032)])
    doubled = "".join(f"INSERT INTO spent SELECT day, vid + {1 << n}, xway, tolls FROM spent WHERE day = 100;" for n in range(10))
    sums = f"xway   0 {3072:20}\nxway   1 {2048:20}\n"
    of_many = asked(
        days=run("days", f"day 100 tuples 2 notices 1 total 5120 digest {EMPTY[:16]}\n# days 1 last 100\n"),
        day=run("day 100", KEPT_DAY.partition("total")[0] + "total 5120\n" + sums),
        export=run("export 100", "vid,day,xway,tolls\n" + "".join(f"{vid},100,{xway},{tolls}\n" for vid, xway, tolls in many)),
        charges=run("charges 1 1000000", "vid,xway,tolls\n7,0,36\n" + lines(*(",".join(map(str, it)) for it in many[1:]))),
        other_vehicle=run("vehicle 8 31 100", f"vehicle 8 days 31 to 100\n    100   0 {3:20}\n    100   1 {2:20}\ntotal{5:27}\n"))
    no_day = {"day": run("day 100", "# no day 100\n", 3), "export": run("export 100", "# no day 100\n", 3)}
    rows = {
        "a history and a day": ("", asked()),
        "a tariff besides": ("INSERT INTO tariffs VALUES (3, 50, 40, 5)", asked(tariffs=run("tariffs", "3,50,40,5\n"))),
        "a row of the benchmark's tariff": ("INSERT INTO tariffs VALUES (0, 50, 40, 2)", asked()),
        "an amount more for each of 1,023 vehicles": (doubled + "UPDATE days SET total = 5120", of_many),
        "a digest of one byte": ("UPDATE days SET digest = x'00'", asked(*OF_THE_DAY)),
        "a number of bytes of -1": ("UPDATE days SET bytes = -1", asked(*OF_THE_DAY)),
        "a day without its seal": ("DELETE FROM day_tariffs", asked(*OF_THE_DAY)),
        "the day 2^32": ("UPDATE days SET day = 4294967296", asked(*OF_THE_LAST, **no_day)),
        "a history of base 69": ("UPDATE past SET base = 69", asked("days", "past")),
        "a tariff of speed 101": ("INSERT INTO tariffs VALUES (0, 50, 101, 2)", asked("tariffs", *OF_AMOUNTS)),
    }
    return {name: [ByHand(BOTH_BY_HAND + text), *runs] for name, (text, runs) in rows.items()}


# Two vehicles that leave the crowded stretch, so that both are charged.
TWO_LEAVE = filled(*(f"0,{time},{vid},30,0,1,0,{segment},{place}" for time, segment, place in ((60, 10, 52800), (90, 11, 58080))
                     for vid in (100, 101)))
TWO_LEFT = told(51) + "0,100,60,30,2\n0,101,60,30,2\n0,100,90,-1,0\n0,101,90,-1,0\n"


@over_files()
def puts_that_are_refused():
    """An amount of a day that is not kept, which another hand put; what comes behind it, and once it is gone."""
    day = FIFTY_ONE + TWO_LEAVE
    of_101 = run("vehicle 101 1 100", f"vehicle 101 days 1 to 100\n    100   0 {9:20}\ntotal{9:27}\n")
    return {"the last amount of a day is there already": [
        ByHand("INSERT INTO spent VALUES (100, 101, 0, 9)"),
        run("days", "# days 0 last 0\n"),
        of_101,
        Run(("import", "100"), TWO_LEFT + "# keeper fault\n", 6, day, cause=ODD_ROW),
        run("days", "# days 0 last 0\n"),
        of_101,
        ByHand("DELETE FROM spent"),
        run("import 100", TWO_LEFT + "# stored day 100 tuples 55 notices 55 total 4\n", 0, day),
        run("export 100", "vid,day,xway,tolls\n100,100,0,2\n101,100,0,2\n"),
    ]}


@over_files("ours")
def files_as_they_are_found():
    """Files of version 1, of other tables or of a spoiled page, and one without the log that lay beside it."""
    without_key = """DROP TABLE spent;
CREATE TABLE spent (day INTEGER NOT NULL, vid INTEGER NOT NULL, xway INTEGER NOT NULL, tolls INTEGER NOT NULL) STRICT;
INSERT INTO spent VALUES (100, 7, 0, 3), (100, 7, 0, 2);"""
    empty = run("day 100", statement((0, 0, 0), EMPTY, EMPTY, EMPTY, 0))
    empty_day = f"INSERT INTO days VALUES (100, x'{EMPTY}', 0, 0, 0, x'{EMPTY}', 0)"
    none = run("answers 100", "3,0,1,0\n# answered day 100 tuples 1 notices 1\n", 0, OF_100)
    no_amount = run("vehicle 8 31 100", f"vehicle 8 days 31 to 100\ntotal{0:27}\n")
    return {
        "version 1 with a history and a day": [ByHand(HISTORY_BY_HAND + DAY_BY_HAND, 1), *asked(), *asked()],
        "version 1 with a day without a line": [
            ByHand(empty_day, 1), empty, empty, run("import 100", "# already day 100 tuples 0 notices 0 total 0\n")],
        "two amounts of one key, in a table without that key": [
            ByHand(BOTH_BY_HAND + without_key),
            *asked(*OF_ITS_ROWS, "amounts", "vehicle", cause=ODD_ROW, oldest=none, other_vehicle=no_amount)],
        "no table of tariffs": [ByHand(BOTH_BY_HAND + "DROP TABLE tariffs"), *asked("tariffs", *OF_AMOUNTS, cause=ODD_ROW)],
        "the page on which the index begins is spoiled": [
            ByHand(BOTH_BY_HAND), Turned(4), *asked(*OF_ITS_ROWS, *OF_AMOUNTS, "vehicle", "other vehicle")],
        "a day whose file is alone": [
            run("import 100", LEFT + STORED, 0, FIFTY_ONE + LEAVES), Alone(),
            run("export 100", "vid,day,xway,tolls\n100,100,0,2\n"),
            run("import 100", STORED.replace("stored", "already"), 0, FIFTY_ONE + LEAVES)],
    }


# The file of seed 1, three vehicles, a minute and a crash, as it was worked out by another program; and what is kept of it.
SMALL = filled("0,7,1,0,0,2,0,44,234960", "0,8,2,0,0,2,0,44,234960", "0,37,1,0,0,2,0,44,234960", "0,38,2,0,0,2,0,44,234960",
               "0,52,3,36,0,0,1,40,211300")
REHEARSED = ("# rehearsed bytes 214 digest 44b1e36c4310330d3d17cbbcf5f28201b22024c6656d64ccaf892d6980c2dd12 tuples 5 notices 3 "
             "notices-digest 840545c82b1741458b319a0d4c02b173fa515b039caa58dd9c5fbadc029f86fb total 0\n")


@table
def a_small_file():
    """The sizes of that file in several spellings, before and after its day is kept, and sizes that are out of range."""
    return {
        "generated, rehearsed, imported, rehearsed": [
            run("generate 1 --vehicles 3 --minutes 1 --crashes 1", SMALL),
            run("generate --crashes=1 --minutes=1 --vehicles=3 -- 1", SMALL, 0, "x"),
            run("rehearse 1 --vehicles=3 --minutes=1 --crashes=1", REHEARSED, 0, "x"),
            run("import 100", "0,1,7,-1,0\n0,2,8,-1,0\n0,3,52,-1,0\n# stored day 100 tuples 5 notices 3 total 0\n", 0, SMALL),
            run("rehearse 1 --vehicles=3 --minutes=1 --crashes=1 --late=120", REHEARSED),
        ],
        "5,001 vehicles": [run("generate 1 --vehicles 5001", "# words\n", 1)],
        "more crashes than vehicles allow": [run("generate 1 --vehicles 3 --crashes 2", "# words\n", 1)],
        "an option that is none": [run("generate 1 -x", "# words\n", 1)],
        "a lateness of what is generated": [run("generate 1 --late 0", "# words\n", 1)],
        "a rehearsal of more crashes than vehicles allow": [run("rehearse 1 --vehicles 3 --crashes 2", "# words\n", 1)],
    }


@relation
def a_file_rehearsed_and_imported(run):
    """A file of twenty vehicles in three spellings; what its rehearsal and its import tell. The front was worked out by another
    program."""
    spellings = ("generate 1 --vehicles=20", "generate --vehicles 20 1", "generate --vehicles=20 -- 1")
    files = [run(words) for words in spellings]
    yield "one file of 15,883 bytes, in three spellings", [len(file) for file in files] + files, [15_883] * 3 + [files[0]] * 3
    sizes = "1 --vehicles=20 --minutes=10 --crashes=1"
    rehearsed = run(f"rehearse {sizes}")
    yield "rehearsed twice", run(f"rehearse {sizes}"), rehearsed
    front = ("# rehearsed bytes 10897 digest 8ac83ba753b7ebcaf695edac1bce21276c84ac988aab905b1df0352e37e0fe6e tuples 240 "
             "notices ")
    yield "the front of what is kept", rehearsed[:len(front)], front
    told, stored = rehearsed.split(), run("import 100", given=run(f"generate {sizes}")).split()
    yield "imported as rehearsed", [stored[-5], stored[-3], stored[-1]], [told[7], told[9], told[13]]


@relation
def an_hour_and_its_audits(run):
    """The notices that a realistic hour is answered with are those of its audits, by some shards and workers."""
    hour = run("generate 1 --vehicles 4000 --minutes 60 --crashes 2")
    notices = run("answers 100", given=hour)
    agree = f"# agree notices {len(notices.splitlines()) - 1}\n"
    for shards in (1, 3, 64):
        for workers in (1, 4):
            audited = run(f"audit 100 --shards={shards} --workers={workers}", given=hour, notices=notices)
            yield f"an hour by {shards} shards and {workers} workers", audited, agree


@relation
def an_hour_rehearsed_and_imported(run):
    """The hour is generated and then imported with the counts of its rehearsal."""
    sizes = "1 --vehicles 4000 --minutes 60 --crashes 2"
    told = run(f"rehearse {sizes}").split()
    stored = run("import 100", given=run(f"generate {sizes}")).splitlines()[-1].split()
    yield "an hour imported as rehearsed", stored[:4] + stored[5::2], ["#", "stored", "day", "100", *told[7:10:2], told[13]]
