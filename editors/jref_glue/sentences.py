"""Refusals, faults and broken rules as sentences with their places."""

from __future__ import annotations

import re
from typing import NamedTuple

FILE_FAULTS = {
    "BadByte": "no token, comment or blank begins here",
    "OpenComment": "this comment has no end",
    "OpenString": "this string has no end on its line",
    "Escape": "this escape isn't in the language",
    "BadNumber": "this number isn't in the language",
    "Deep": "brackets, one statement or a chain of `else` go on too long here",
    "Syntax": "this isn't in the subset of Java that jref reads, from here on",
}

DECLARATION_FAULTS = {
    "PackageDiffers": "the package isn't that of the first file",
    "PreludeName": "a class of this name is known to every program",
    "TwiceClass": "there is a class of this name already",
    "NoSuperclass": "the superclass isn't a class of the program",
    "Cycle": "the class is its own superclass, or that of its superclass and so on",
    "NoTy": "the type isn't a class of the program",
    "TwiceMember": "the same is declared already",
    "MemberTypeName": "the class has the name of a field or method of the class around it",
    "BadModifiers": "these modifiers don't go together, or not here",
    "StaticInit": "a static field may begin with a literal or `new Object()` alone",
}

RULES = {
    "NoVariable": "no variable of this name is found",
    "NoType": "no type of this name is found",
    "NoMethod": "no method or constructor takes these arguments",
    "Ambiguous": "several methods or constructors take these arguments, and none is the closest",
    "Private": "this is private in another class",
    "StaticContext": "there is no object here that this could be of",
    "StaticThroughValue": "a static member is named through a value",
    "InstanceThroughType": "a member of an object is named through a class",
    "TypeMismatch": "the type isn't the one that is asked for",
    "Operands": "the operator doesn't take operands of these types",
    "BadCast": "neither type is below the other",
    "FinalAssigned": "a final variable is assigned",
    "Redeclared": "a local of this name is in scope already",
    "Forward": "this is named before it has a value",
    "VoidValue": "the method gives no value",
    "ReturnForm": "a `return` of this form may not stand here",
    "MissingReturn": "the method can come to its end without a `return`",
    "Unreachable": "this statement can't be reached",
    "ConstantCondition": "the condition is a constant other than `true`",
    "Override": "this doesn't agree with the superclass's method of the same name and types",
    "SuperCtor": "the superclass has no constructor without parameters that can be called here",
    "FinalClass": "the superclass is final",
    "ObjectMethod": "a method of one of Object's names is declared or called",
}

NEEDS = {
    "Declaration": "nothing of the program is declared or named here",
    "Value": "no expression whose value a local can take has exactly this span",
    "Local": "no local that a statement declares is declared or named here",
    "OneUse": "the local isn't read exactly once, and its value does more than read locals",
    "Statements": "the span is neither one expression nor whole statements of one list",
    "Call": "no call stands here in a place that statements can take",
    "VoidCall": "the value of this call is dropped, and its method gives one",
    "LocalReceiver": "the call's receiver is more than a name, `this`, `super` or a class",
    "Method": "no method of the kind that moves is declared here",
    "OtherClass": "no other class of the program has the name of the one to move to",
    "Parent": "the superclass isn't a class of the program",
    "NoInitializer": "the field has an initializer",
}

FAULTS = {**FILE_FAULTS, **DECLARATION_FAULTS, **RULES}

PLACE = r"(?P<file>\d+)\.java:(?P<at>\d+)"

REFUSALS = {
    "NoSuchFile": ("(?P<a>.*)", "{a} is no file of the program"),
    "BadPlace": (PLACE, "the place is past the end, or inside a character"),
    "BadName": ("(?P<a>.*)", "`{a}` can't be a name"),
    "SourceError": (f"{PLACE} (?P<fault>.*)", "{fault}"),
    "BadTarget": (f"{PLACE} (?P<need>.*)", "{need}"),
    "PreludeMethod": ("(?P<a>.*)", "{a} is a method that every program has"),
    "Conditional": (PLACE, "the code would run only where this condition says so"),
    "HasReturn": (PLACE, "this `return` stands in the way"),
    "TwoResults": (r"(?P<a>\S+) (?P<b>\S+)", "both {a} and {b} are used afterwards"),
    "ManyTargets": (f"{PLACE} (?P<a>.*)", "the call may run another method than {a}"),
    "MayBeNull": (PLACE, "this may be null"),
    "Recursive": (PLACE, "the method calls itself here"),
    "Assigned": (rf"(?P<a>\S+) {PLACE}", "{a} is assigned here"),
    "Clash": ("(?P<a>.*)", "the name is taken: {a} has it there"),
    "OverrideChanged": (
        r"(?P<a>\S+) (?P<b>\S+)",
        "of an object of {a} another method than before would run where {b} is called",
    ),
    "LostBinding": (
        rf"{PLACE} (?P<a>\S+) found (?P<b>.*)",
        "this means {a}, and nothing that can be written here still would: it would mean {b}",
    ),
    "WouldNotCompile": (
        r"(?P<file>\d+)\.java:(?P<new>\d+) (?P<fault>.*)",
        "at byte {new} of the new text something would be wrong: {fault}",
    ),
    "LostDependence": (
        rf"\w+ {PLACE} (?P<a>.+) before \d+\.java:\d+ (?P<b>.+)",
        "this ({a}) would no longer come before what it has to come before ({b})",
    ),
    "TooLong": ("(?P<a>.*)", "the new text would have {a} bytes, which are too many"),
    "ReportFull": ("(?P<a>.*)", "what is asked for comes to {a} bytes, which are too many"),
    "TooManySites": (r"(?P<a>\S+) (?P<b>\d+)", "{a} has {b} places to look at, which are too many"),
}


class Finding(NamedTuple):
    """A sentence, the file and byte that it is about where it is about one, and its code."""

    file: int | None
    at: int | None
    sentence: str
    code: str


def of_fault(file: int, at: int, kind: str) -> Finding:
    """A fault of a file or of declarations, or a broken rule."""
    return Finding(file, at, FAULTS.get(kind, kind), kind)


def of_refusal(text: str) -> Finding:
    """The refusal of a report, in words. One that isn't known is told as it is."""
    code, _, rest = text.partition(" ")
    pattern, sentence = REFUSALS.get(code, ("(?P<a>.*)", f"{code} {{a}}"))
    match = re.fullmatch(pattern, rest, re.DOTALL)
    if not match:
        return Finding(None, None, text, code)
    words = match.groupdict()
    if code == "SourceError":
        code = words["fault"]
    words.update((name, spoken(words[name])) for name in "ab" if name in words)
    words["fault"] = FAULTS.get(words.get("fault"), words.get("fault"))
    words["need"] = NEEDS.get(words.get("need"), words.get("need"))
    return Finding(_number(words, "file"), _number(words, "at"), sentence.format(**words), code)


def spoken(text: str) -> str:
    """The text with each local and parameter in it, as `A.m(int)#0`, called one."""
    return re.sub(r"(\S+\))#(\d+)", r"local or parameter #\2 of \1", text)


def _number(words: dict, name: str) -> int | None:
    return int(words[name]) if words.get(name) else None
