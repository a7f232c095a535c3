"""The tree of a text, or its first fault (JLS 8, 14, 15, without what the profile leaves out).

A node is a SimpleNamespace with `kind` and `at`, the byte where it begins; a member and a
statement have `end` too, the byte behind it, and so has an expression. A word has `at` and `text`.
"""
import sys
from functools import lru_cache
from types import SimpleNamespace as Node

from .tokens import Fault, GREATEST, measure, tokens_of

# A text within the limits of depth has at most 100 brackets in one another, and each takes some
# fifteen calls.
sys.setrecursionlimit(20_000)

MODIFIERS = {"public", "protected", "private", "static", "final", "volatile", "synchronized"}
LEVELS = [{"||"}, {"&&"}, {"==", "!="}, {"<", ">", "<=", ">="}, {"+", "-"}, {"*", "/", "%"}]
ASSIGNS = {"=", "+=", "-=", "*=", "/=", "%="}
BUMPS = {"++", "--"}
TARGETS = {"name", "field", "super_field"}
CALLS = {"call", "super_call", "create"}


class Parser:
    def __init__(self, text):
        self.tokens, self.last = tokens_of(text)
        measure(self.tokens)
        self.i = 0

    # tokens

    def peek(self, ahead=0):
        i = self.i + ahead
        return self.tokens[i] if i < len(self.tokens) else self.last

    def text(self, ahead=0):
        token = self.peek(ahead)
        return "" if token.kind == "string" else token.text

    def at(self):
        return self.peek().at

    def is_word(self, ahead=0):
        return self.peek(ahead).kind == "word"

    def fault(self):
        raise Fault("Syntax", self.at())

    def next(self):
        self.i += 1
        return self.tokens[self.i - 1]

    def want(self, text):
        if self.text() != text:
            self.fault()
        return self.next()

    def takes(self, text):
        found = self.text() == text
        self.i += found
        return found

    def word(self):
        if not self.is_word():
            self.fault()
        token = self.next()
        return Node(at=token.at, text=token.text)

    # declarations

    def unit(self):
        package, package_at = None, 0
        if self.text() == "package":
            package_at = self.next().at
            package = [self.word().text]
            while self.takes("."):
                package.append(self.word().text)
            self.want(";")
        classes = []
        while self.peek().kind != "end":
            at, modifiers = self.at(), self.modifiers()
            classes.append(self.class_behind(at, modifiers, False))
        return Node(package=package, package_at=package_at, classes=classes)

    def modifiers(self):
        words = []
        while self.text() in MODIFIERS:
            words.append(self.next().text)
        return words

    def class_behind(self, at, modifiers, nested):
        self.want("class")
        name, parent, members = self.word(), None, []
        if self.takes("extends"):
            parent = self.class_type()
        self.want("{")
        while not self.takes("}"):
            members.append(self.member(name.text, nested))
        return Node(
            kind="class", at=at, modifiers=modifiers, name=name, parent=parent, members=members
        )

    def class_type(self):
        first = self.word()
        if self.takes("."):
            return Node(kind="named", at=first.at, outer=first, name=self.word())
        return Node(kind="named", at=first.at, outer=None, name=first)

    def type(self):
        if self.text() in ("int", "boolean"):
            token = self.next()
            return Node(kind=token.text, at=token.at)
        return self.class_type()

    def member(self, class_name, nested):
        return self.ended(self.open_member(class_name, nested))

    def ended(self, node):
        token = self.tokens[self.i - 1]
        node.end = token.at + len(token.text.encode("utf-8"))
        return node

    def open_member(self, class_name, nested):
        at, modifiers = self.at(), self.modifiers()
        if self.text() == "class" and not nested:
            return Node(kind="inner", at=at, of=self.class_behind(at, modifiers, True))
        if self.is_word() and self.text() == class_name and self.text(1) == "(":
            return self.constructor(at, modifiers)
        type = None if self.takes("void") else self.type()
        name = self.word()
        if type is None and self.text() != "(":
            self.fault()
        if self.text() == "(":
            params = self.params()
            return Node(
                kind="method", at=at, modifiers=modifiers, type=type, name=name, params=params,
                body=self.block_items(),
            )
        init = self.expression() if self.takes("=") else None
        self.want(";")
        return Node(kind="field", at=at, modifiers=modifiers, type=type, name=name, init=init)

    def constructor(self, at, modifiers):
        name, params, super_at, super_args = self.word(), self.params(), None, None
        self.want("{")
        if self.text() == "super" and self.text(1) == "(":
            super_at, super_args = self.next().at, self.args()
            self.want(";")
        return Node(
            kind="ctor", at=at, modifiers=modifiers, name=name, params=params, super_at=super_at,
            super_args=super_args, body=self.items_to_brace(),
        )

    def params(self):
        self.want("(")
        params = []
        if not self.takes(")"):
            params.append(self.param())
            while self.takes(","):
                params.append(self.param())
            self.want(")")
        return params

    def param(self):
        final = self.takes("final")
        type = self.type()
        return Node(final=final, type=type, name=self.word())

    # statements

    def block_items(self):
        self.want("{")
        return self.items_to_brace()

    def items_to_brace(self):
        items = []
        while not self.takes("}"):
            items.append(self.item())
        return items

    def declares_local(self):
        if self.text() in ("final", "int", "boolean"):
            return True
        if not self.is_word():
            return False
        return self.is_word(1) or self.text(1) == "." and self.is_word(2) and self.is_word(3)

    def item(self):
        return self.ended(self.open_item())

    def open_item(self):
        if not self.declares_local():
            return self.statement()
        at, final = self.at(), self.takes("final")
        type, name = self.type(), self.word()
        self.want("=")
        init = self.expression()
        self.want(";")
        return Node(kind="local", at=at, final=final, type=type, name=name, init=init)

    def condition(self):
        self.want("(")
        value = self.expression()
        self.want(")")
        return value

    def statement(self):
        return self.ended(self.open_statement())

    def open_statement(self):
        at, word = self.at(), self.text()
        if word == "{":
            return Node(kind="block", at=at, body=self.block_items())
        if self.takes(";"):
            return Node(kind="empty", at=at)
        if self.takes("if"):
            condition, then = self.condition(), self.statement()
            other = self.statement() if self.takes("else") else None
            return Node(kind="if", at=at, condition=condition, then=then, other=other)
        if self.takes("while"):
            return Node(kind="while", at=at, condition=self.condition(), body=self.statement())
        if self.takes("return"):
            value = None if self.text() == ";" else self.expression()
            self.want(";")
            return Node(kind="return", at=at, value=value)
        if self.takes("synchronized"):
            return Node(kind="sync", at=at, lock=self.condition(), body=self.block_items())
        value = self.statement_expression()
        self.want(";")
        return Node(kind="eval", at=at, value=value)

    def statement_expression(self):
        if self.text() in BUMPS:
            return self.prefix_bump()
        value = self.primary()
        if value.kind in TARGETS and self.text() in ASSIGNS:
            return self.ended(self.assignment(value))
        if value.kind in TARGETS and self.text() in BUMPS:
            self.next()
            return self.ended(Node(kind="bump", at=value.at, of=value))
        if value.kind not in CALLS:
            self.fault()
        return value

    # expressions

    def expression(self):
        value = self.binary(0)
        if value.kind in TARGETS and self.text() in ASSIGNS:
            return self.ended(self.assignment(value))
        return value

    def assignment(self, target):
        op = self.next().text
        kind = "assign" if op == "=" else "compound"
        return Node(kind=kind, at=target.at, op=op, left=target, right=self.expression())

    def binary(self, level):
        if level == len(LEVELS):
            return self.unary()
        left = self.binary(level + 1)
        while self.text() in LEVELS[level]:
            op = self.next().text
            right = self.binary(level + 1)
            left = self.ended(Node(kind="binary", at=left.at, op=op, left=left, right=right))
        return left

    def unary(self):
        at, op = self.at(), self.text()
        if op in ("+", "-"):
            self.next()
            if op == "-" and self.is_greatest():
                return self.ended(Node(kind="unary", at=at, op=op, of=self.primary(True)))
            return self.ended(Node(kind="unary", at=at, op=op, of=self.unary()))
        return self.prefix_bump() if op in BUMPS else self.not_sign()

    def is_greatest(self):
        token = self.peek()
        return token.kind == "number" and int(token.text) == GREATEST

    def prefix_bump(self):
        at = self.next().at
        target = self.primary()
        if target.kind not in TARGETS:
            self.fault()
        return self.ended(Node(kind="bump", at=at, of=target))

    def begins_cast(self):
        """Whether `(`, a name and `)` stand here, and behind them what a cast may be of."""
        if self.text() != "(" or not self.is_word(1):
            return False
        end = 4 if self.text(2) == "." and self.is_word(3) else 2
        behind = self.peek(end + 1)
        if self.text(end) != ")":
            return False
        return behind.kind in ("word", "number", "string") or self.text(end + 1) in (
            "!", "(", "true", "false", "null", "this", "super", "new",
        )

    def not_sign(self):
        at = self.at()
        if self.takes("!"):
            return self.ended(Node(kind="unary", at=at, op="!", of=self.unary()))
        if self.begins_cast():
            self.next()
            type = self.class_type()
            self.want(")")
            return self.ended(Node(kind="cast", at=at, type=type, of=self.not_sign()))
        value = self.primary()
        if value.kind in TARGETS and self.text() in BUMPS:
            self.next()
            return self.ended(Node(kind="bump", at=value.at, of=value))
        return value

    def args(self):
        self.want("(")
        args = []
        if not self.takes(")"):
            args.append(self.expression())
            while self.takes(","):
                args.append(self.expression())
            self.want(")")
        return args

    def primary(self, behind_minus=False):
        value = self.ended(self.first_primary(behind_minus))
        while self.text() == ".":
            self.next()
            if self.text() == "class" and self.names_class(value):
                self.next()
                value = Node(kind="class_literal", at=value.at, type=self.as_type(value))
            else:
                value = self.behind_dot(value)
            self.ended(value)
        return value

    def behind_dot(self, on):
        name = self.word()
        if self.text() == "(":
            return Node(kind="call", at=on.at, on=on, name=name, args=self.args())
        return Node(kind="field", at=on.at, on=on, name=name)

    def names_class(self, value):
        return value.kind == "name" or value.kind == "field" and value.on.kind == "name"

    def as_type(self, value):
        outer = value.on.name if value.kind == "field" else None
        return Node(kind="named", at=value.at, outer=outer, name=value.name)

    def first_primary(self, behind_minus):
        token, at = self.peek(), self.at()
        if token.kind == "number":
            if int(token.text) == GREATEST and not behind_minus:
                self.fault()
            self.next()
            return Node(kind="number", at=at, value=int(token.text))
        if token.kind == "string":
            self.next()
            return Node(kind="string", at=at)
        if token.kind == "word":
            name = self.word()
            if self.text() == "(":
                return Node(kind="call", at=at, on=None, name=name, args=self.args())
            return Node(kind="name", at=at, name=name)
        if self.text() in ("true", "false"):
            return Node(kind="truth", at=at, value=self.next().text == "true")
        if self.takes("null"):
            return Node(kind="null", at=at)
        if self.takes("this"):
            return Node(kind="this", at=at)
        if self.takes("super"):
            self.want(".")
            name = self.word()
            if self.text() == "(":
                return Node(kind="super_call", at=at, name=name, args=self.args())
            return Node(kind="super_field", at=at, name=name)
        if self.takes("new"):
            type = self.class_type()
            return Node(kind="create", at=at, type=type, args=self.args())
        if self.takes("("):
            value = self.expression()
            self.want(")")
            return Node(kind="paren", at=at, of=value)
        self.fault()


@lru_cache(maxsize=256)
def read(text):
    return Parser(text).unit()
