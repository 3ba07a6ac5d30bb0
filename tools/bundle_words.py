"""The bundle file and its text form, for the commands of this folder.

Limits, refusals and their order are those of docs/REFERENCE.md.
"""

from command import Refused, shown

MARK = 4294967295
MOST_REQUESTS = 8000
MOST_FRAMES = 256
MOST_TEXT = 16777216  # bytes of a text that are read

TEXT_FORM = """\
The text has lines of these kinds, in any order:

    n 3                    frames of the four rules
    m 2                    frames of the plan
    requests 5 6 7 5       pages, 0 to 4294967294
    plan - - 5 6           pages, or dashes for none; may be left out
    # a remark             up to the end of the line

A list goes on over further lines, with or without its name in front, so that one
request on a line works too. A comma may stand behind a word and ends it: 1,000 is
two words. A mark of byte order in front is passed over."""


# ---- The text form ----


class Text:
    """What was read of a text so far, and where."""

    def __init__(self):
        self.sizes = {}
        self.lists = {}
        self.where = {}  # line and word of a size, and of the first request too many
        self.begun = {}  # the line where a list begins
        self.open = None  # the list that a line without a name goes on with

    def take(self, line, words):
        name = words[0]
        if name in ("n", "m"):
            self.open = None
            self.take_size(line, name, words[1:])
        elif name in ("requests", "plan"):
            self.open = name
            self.lists.setdefault(name, [])
            self.begun.setdefault(name, line)
            self.take_words(line, words[1:], 2)
        elif self.open:
            self.take_words(line, words, 1)
        else:
            raise Refused(f"line {line}, word 1: '{shown(name)}' isn't n, m, requests or plan, and no list goes on here")

    def take_size(self, line, name, rest):
        if name in self.sizes:
            raise Refused(f"line {line}, word 1: {name} is given again; it stands in {self.where[name]}")
        if len(rest) != 1:
            raise Refused(f"line {line}, word 1: {name} takes one number, and {len(rest)} words follow")
        self.sizes[name] = parse_number(rest[0], line, 2, "a number of frames, 1 to 256")
        self.where[name] = f"line {line}, word 2"

    def take_words(self, line, words, first):
        into = self.lists[self.open]
        for place, word in enumerate(words, first):
            into.append(parse_word(self.open, word, line, place))
            if len(into) == MOST_REQUESTS + 1:
                self.where[self.open] = f"line {line}, word {place}"

    def whole(self):
        """n, m, requests and plan (empty where none came)."""
        for name in ("n", "m"):
            if name not in self.sizes:
                raise Refused(f"there is no line for {name}")
        if "requests" not in self.lists:
            raise Refused("there is no line of requests")
        requests = self.lists["requests"]
        plan = self.lists.get("plan", [])
        if "plan" in self.lists and len(plan) != len(requests):
            lengths = f"has {len(plan)} words, but there are {len(requests)} requests"
            raise Refused(f"line {self.begun['plan']}: the plan that begins here {lengths}")
        return self.sizes["n"], self.sizes["m"], requests, plan


def parse_text(text):
    """Answers n, m, requests and plan of a text, as a bundle can have them."""
    read = Text()
    lines = text.removeprefix("\ufeff").replace("\r\n", "\n").replace("\r", "\n").split("\n")
    for number, line in enumerate(lines, 1):
        words = split_line(line.split("#")[0], number)
        if words:
            read.take(number, words)
    whole = read.whole()
    try:
        judge_values(*whole)
    except RefusedByNumber as refusal:
        raise Refused(f"{read.where[refusal.about]}: {refusal.words} (refusal {refusal.number})") from None
    return whole


def split_line(line, number):
    """The line's words. A comma stands behind a word; where one stands alone, a word is missing."""
    words = []
    may = False  # whether a comma may come
    for word in line.replace(",", " , ").split():
        if word == "," and not may:
            raise Refused(f"line {number}, word {len(words) + 1}: there is a comma where a word should be")
        if word != ",":
            words.append(word)
        may = word != ","
    return words


def parse_number(word, line, place, wanted):
    if not (word.isascii() and word.isdigit()):
        raise Refused(f"line {line}, word {place}: '{shown(word)}' isn't {wanted}")
    if word[0] == "0" and word != "0":
        # Mostly the rest of a number with a comma in it, which would be counted as a request of its own.
        why = "has a zero in front; a comma ends a word, so write 1000, not 1,000"
        raise Refused(f"line {line}, word {place}: '{shown(word)}' {why}")
    if len(word) > 10 or int(word) > MARK:
        raise Refused(f"line {line}, word {place}: '{shown(word)}' isn't {wanted}")
    return int(word)


def parse_word(name, word, line, place):
    """A page; in a plan also the mark, written as a dash."""
    if name == "plan" and word == "-":
        return MARK
    number = parse_number(word, line, place, f"a page, 0 to {MARK - 1}" + (", or - for none" if name == "plan" else ""))
    if number == MARK:
        raise Refused(f"line {line}, word {place}: {MARK} is the mark, not a page")
    return number


def print_text(n, m, requests, plan):
    lines = [f"n {n}", f"m {m}"]
    lines += print_list("requests", requests)
    if plan:
        lines += print_list("plan", plan)
    return "".join(line + "\n" for line in lines)


def print_list(name, words):
    """Sixteen words to a line; a list without words still has its line."""
    texts = ["-" if word == MARK else str(word) for word in words]
    starts = range(0, max(len(texts), 1), 16)
    return [" ".join([name] + texts[start:start + 16]) for start in starts]


# ---- The bundle file ----


class RefusedByNumber(Refused):
    """A refusal of a bundle, with its number and place; `about` names the part that is wrong."""

    def __init__(self, number, place, words, about=None):
        super().__init__(f"refused {number} at {place}: {words}")
        self.number = number
        self.line = f"refused {number} at {place}"
        self.words = words
        self.about = about


def judge_values(n, m, requests, plan):
    """Refuses in the writer's order: 2, 12, 3, 4, 10."""
    for name, size in (("n", n), ("m", m)):
        if not 1 <= size <= MOST_FRAMES:
            raise RefusedByNumber(2, 0, f"{name} is {size}, not 1 to 256", name)
    if m > n:
        raise RefusedByNumber(12, 8, f"m is {m}, above n, which is {n}", "m")
    if len(requests) > MOST_REQUESTS:
        raise RefusedByNumber(3, 0, f"there are {len(requests)} requests, above 8000", "requests")
    if MARK in requests:
        raise RefusedByNumber(4, requests.index(MARK), "the request is the mark", "requests")
    if len(plan) not in (0, len(requests)):
        raise RefusedByNumber(10, 0, "the plan's length isn't 0 or that of the requests", "plan")


def write_bundle(n, m, requests, plan):
    judge_values(n, m, requests, plan)
    words = [2, n, m, len(requests)] + requests + [len(plan)] + plan
    return b"".join(word.to_bytes(4, "little") for word in words)


def read_bundle(data):
    """Refuses in the reader's order: 9, 10 and 11 front to back, then 2, 12, 4."""
    (n, m), place = read_section(data, 0, [2], "a bundle begins with the count 2 of its sizes")
    requests, place = read_section(data, place, range(MOST_REQUESTS + 1), "there may be 8000 requests at most")
    all_of_them = len(requests)
    plan, place = read_section(data, place, [0, all_of_them], f"a plan has 0 words or {all_of_them}, as there are requests")
    if place < len(data):
        raise RefusedByNumber(11, place, "there are bytes behind the plan, where a bundle ends")
    for name, size, byte in (("n", n, 4), ("m", m, 8)):
        if not 1 <= size <= MOST_FRAMES:
            raise RefusedByNumber(2, byte, f"{name} is {size}, not 1 to 256")
    if m > n:
        raise RefusedByNumber(12, 8, f"m is {m}, above n, which is {n}")
    if MARK in requests:
        moment = requests.index(MARK)
        raise RefusedByNumber(4, 16 + 4 * moment, f"the request at moment {moment} is the mark, {MARK}, which is no page")
    return n, m, requests, plan


def read_section(data, place, allowed, rule):
    """The section's words, and the place after them."""
    count = read_word(data, place)
    if count not in allowed:
        raise RefusedByNumber(10, place, f"the count is {count}, but {rule}")
    words = [read_word(data, place + 4 + 4 * i) for i in range(count)]
    return words, place + 4 + 4 * count


def read_word(data, place):
    if place + 4 > len(data):
        if not data:
            raise RefusedByNumber(9, 0, "the file is empty")
        where = "where another word should begin" if place == len(data) else f"inside the word that begins at byte {place}"
        raise RefusedByNumber(9, place, f"the file ends after {len(data)} bytes, {where}")
    return int.from_bytes(data[place:place + 4], "little")
