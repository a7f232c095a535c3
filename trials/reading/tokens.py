"""The tokens of a text, or its first lexical fault or fault of depth (JLS 3)."""
from collections import namedtuple
from functools import lru_cache

Token = namedtuple("Token", "kind text at")  # kind: word, keyword, number, string, symbol, end

KEYWORDS = set(
    "abstract assert boolean break byte case catch char class const continue default do double"
    " else enum extends final finally float for goto if implements import instanceof int interface long"
    " native new package private protected public return short static strictfp super switch"
    " synchronized this throw throws transient try void volatile while".split()
)
LITERALS = {"true", "false", "null"}
SYMBOLS = set(
    "( ) { } [ ] ; , . ... @ :: = > < ! ~ ? : -> == >= <= != && || ++ -- + - * / & | ^ % << >> >>>"
    " += -= *= /= &= |= ^= %= <<= >>= >>>=".split()
)
BLANKS = " \t\f\n\r"
ESCAPES = "btnfr\"'\\"
GREATEST = 2147483648


class Fault(Exception):
    """A fault of a file: its kind and the byte where it stands."""

    def __init__(self, kind, at):
        super().__init__(kind, at)
        self.kind = kind
        self.at = at


def starts_word(c):
    return c == "$" or c.isidentifier()


def continues_word(c):
    return c == "$" or ("a" + c).isidentifier()


class Lexer:
    def __init__(self, text):
        self.text = text
        self.byte_at = [0]
        for c in text:
            self.byte_at.append(self.byte_at[-1] + len(c.encode("utf-8", "surrogatepass")))

    def fault(self, kind, i):
        raise Fault(kind, self.byte_at[i])

    def starts_unicode_escape(self, i):
        """Whether a backslash before a `u` is one that an even number of them precedes."""
        if not self.text.startswith("\\u", i):
            return False
        before = 0
        while i - before > 0 and self.text[i - before - 1] == "\\":
            before += 1
        return before % 2 == 0

    def least(self, faults):
        if faults:
            kind, i = min(faults, key=lambda fault: fault[1])
            self.fault(kind, i)

    def unicode_escapes(self, i, end):
        return [("Escape", j) for j in range(i, end) if self.starts_unicode_escape(j)][:1]

    def comment_end(self, i):
        text = self.text
        if text[i + 1] == "/":
            end = i
            while end < len(text) and text[end] not in "\n\r":
                end += 1
            self.least(self.unicode_escapes(i, end))
            return end
        end = text.find("*/", i + 2)
        if end < 0:
            self.fault("OpenComment", i)
        self.least(self.unicode_escapes(i, end + 2))
        return end + 2

    def string_end(self, i):
        text, j, faults = self.text, i + 1, []
        while True:
            if j >= len(text) or text[j] in "\n\r":
                self.fault("OpenString", i)
            if text[j] == '"':
                break
            if text[j] == "\\":
                if j + 1 >= len(text):
                    self.fault("OpenString", i)
                if text[j + 1] not in ESCAPES:
                    faults.append(("Escape", j))
                j += 1
            j += 1
        self.least(faults)
        return j + 1

    def number_end(self, i):
        text, j = self.text, i
        if text[i] == ".":
            self.fault("BadNumber", i)
        while j < len(text) and text[j] in "0123456789":
            j += 1
        digits = text[i:j]
        bad = len(digits) > 1 and digits[0] == "0" or int(digits) > GREATEST
        if bad or j < len(text) and (continues_word(text[j]) or text[j] == "."):
            self.fault("BadNumber", i)
        return j

    def tokens(self):
        text, out, i = self.text, [], 0
        while i < len(text):
            c, at, j = text[i], self.byte_at[i], i + 1
            if c in BLANKS:
                i = j
                continue
            if text.startswith("//", i) or text.startswith("/*", i):
                i = self.comment_end(i)
                continue
            if starts_word(c):
                while j < len(text) and continues_word(text[j]):
                    j += 1
                word = text[i:j]
                named = word not in KEYWORDS and word not in LITERALS
                out.append(Token("word" if named else "keyword", word, at))
            elif c in "0123456789" or c == "." and text[i + 1 : i + 2].isdigit():
                j = self.number_end(i)
                out.append(Token("number", text[i:j], at))
            elif c == '"':
                j = self.string_end(i)
                out.append(Token("string", text[i:j], at))
            elif self.starts_unicode_escape(i):
                self.fault("Escape", i)
            else:
                j = i + 4
                while j > i and text[i:j] not in SYMBOLS:
                    j -= 1
                if j == i:
                    self.fault("BadByte", i)
                out.append(Token("symbol", text[i:j], at))
            i = j
        return out, Token("end", "", self.byte_at[-1])


@lru_cache(maxsize=256)
def tokens_of(text):
    """The tokens of a text, and the end behind them."""
    return Lexer(text).tokens()


def measure(tokens):
    """Raises where brackets, tokens between separators or words `else` pass their limits."""
    brackets = between = elses = 0
    for token in tokens:
        if token.kind == "symbol" and token.text in "([{":
            brackets += 1
        if token.kind == "symbol" and token.text in ")]}":
            brackets = max(0, brackets - 1)
        if token.text == "else":
            elses += 1
        separates = token.kind == "symbol" and token.text in ";{}"
        between = 0 if separates else between + 1
        if brackets > 100 or between > 300 or elses > 500:
            raise Fault("Deep", token.at)
