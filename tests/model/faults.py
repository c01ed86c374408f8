"""The faults that `docs/SPECIFICATION.md` numbers: their names, places and statuses."""
import re

NAMES = dict(line.split() for line in """
    E1 NulByte
    E2 MissingField
    E3 BadKind
    E4 BadControl
    E5 BadValue
    E6 BadAction
    E7 ZeroJump
    E8 OpenBracket
    E9 MissingTarget
    E10 BadTarget
    E11 Cycle
    E12 TooDeep
    E13 TooManyModules
    E14 IncludeInSingleFile
    E15 NoService
    E16 FileTooLong
    E18 TooManyFollowed
    E19 TooManyStates
    DE1 WrongCount
    TE1 MissingField
    TE2 BadPermission
    TE3 Netgroup
    TE4 UserAtHost
    TE5 BadMask
    TE6 BadTimes
    TE7 TwoWildcards
    TE8 BadLogic
    TE9 BadGroup
    TE10 NulByte
    TE12 TableTooLong
    TE13 BadCode
    TE14 BadModule
    TE15 BadAccept
    TE16 BadFact
    TE17 BadServices
    TE18 BadKinds
    TE19 BadVerb
    TE20 BadEvent
    TE21 BadList
    TE22 NoAnswers
    TE23 ExtraWord
    TE24 TooManyRules
    C1 Syntax
    C2 NotLeast
    C3 TooShort
    C4 TooLong
    M1 Range
    M2 Rule
    M4 Syntax
    U1 NotUtf8
    U2 Source
    U3 KindName
    U4 CodeName
    U5 Login
    U6 Moment
    U8 BothEnds
    U9 NoSuchModule
    U10 NoSuchKey
    U11 BothFilters
    U12 FormatName
    U13 LevelName
    U15 CandidateForm
    U16 ReleaseForm
    U17 SettingForm
    U18 NoSuchService
    U19 UnusedCandidate
    U20 AnswersName
    V1 Read
    V2 Write
""".strip().splitlines())

STATUSES = {"U": 2, "C": 2, "DE": 2, "E": 3, "TE": 4, "M": 4, "V": 5}

MOST_BYTES = 1048576


class Fault(Exception):
    """A refusal by its number, with its place as bytes where it has one, and what is said after it; also what commands that tell why say,
    where the number alone does not say it."""

    def __init__(self, number, place=None, said=b"", told=None):
        super().__init__(number, place, said, told)
        self.number = number
        self.place = place
        self.said = said
        self.told = told

    def line(self, told=b"", show=bytes):
        """The line on standard error, by how names are shown."""
        place = b"" if self.place is None else b" " + show(self.place)
        return b"pamcheck: %s %s%s%s%s\n" % (self.number.encode(), NAMES[self.number].encode(), place, self.said, told)

    def status(self):
        """The status with which the program ends."""
        return STATUSES[re.match("[A-Z]+", self.number).group()]


class LineFault(Exception):
    """A refusal of one line, whose file is not known yet."""

    def __init__(self, number, line=None):
        super().__init__(number, line)
        self.number = number
        self.line = line


def judged(name, numbered, judge):
    """What `judge` says of each numbered line; its first refusal is a fault of the file with that name."""
    answers = []
    for number, line in numbered:
        try:
            answers.append(judge(number, line))
        except LineFault as fault:
            raise Fault(fault.number, b"%s:%d" % (name, number)) from None
    return answers


def judge_whole(name, data, too_long, has_nul):
    """Refuses a file that is too long or has a NUL byte, with these numbers."""
    if len(data) > MOST_BYTES:
        raise Fault(too_long, name + b":0")
    if b"\0" in data:
        raise Fault(has_nul, b"%s:%d" % (name, 1 + data[:data.index(b"\0")].count(b"\n")))
