"""Files of quantities, each with what is wrong in it: the text, the line that the fault names (0: no line; None: nothing is
wrong), and a word of the sentence."""

from typing import List, Optional, Tuple, Union

GOOD = "good 0100 single B14 m\n"
Case = Tuple[str, Union[str, bytes], Optional[int], str]


def second(line: str) -> str:
    """A file whose third line is this one."""
    return f"# a comment\n{GOOD}{line}\n"


def many(count: int, kind: str) -> str:
    """A file of this many quantities of a kind."""
    return "".join(f"q{number} 0100 {kind} B0\n" for number in range(count))


CASES: List[Case] = [
    ("unknown kind", second("a 0100 quad B14"), 3, "unknown kind"),
    ("a kind in capitals", second("a 0100 Single B14"), 3, "unknown kind"),
    ("a name that begins with a digit", second("1a 0100 single B14"), 3, "a name is"),
    ("a name with a comma", second("a,b 0100 single B14"), 3, "a name is"),
    ("a name of 25 characters", second("a" * 25 + " 0100 single B14"), 3, "a name is"),
    ("a name of 24 characters", second("a" * 24 + " 0100 single B14"), None, ""),
    ("a name with each sign", second("aZ0_.- 0100 single B14"), None, ""),
    ("a name twice", second("good 0101 single B14"), 3, "an earlier line"),
    ("an unknown place", second("a NOWHERE single B14"), 3, "unknown place `NOWHERE`"),
    ("a place with a letter missing", second("a LST single B14"), 3, "did you mean `LST1`?"),
    ("a place in the E-bank alone", second("a 1400 single B14"), 3, "unknown place `1400`"),
    ("a place in fixed memory", second("a 4000 single B14"), 3, "fixed memory"),
    ("a place in a fixed bank", second("a 05,2000 single B14"), 3, "fixed memory"),
    ("a channel", second("a C010 single B14"), 3, "unknown place"),
    ("a range of places", second("a 0100-0101 double B14"), 3, "unknown place"),
    ("a double past its bank", second("a 0377 double B14"), 3, "past the last cell"),
    ("a triple past its bank", second("a E3,1776 triple B14"), 3, "past the last cell"),
    ("a triple at the end of its bank", second("a E3,1775 triple B14"), None, ""),
    ("a vector past erasable memory", second("a E7,1773 vector B14"), 3, "past the last cell"),
    ("a vector at the end of erasable memory", second("a E7,1772 vector B14"), None, ""),
    ("the last cell", second("a E7,1777 single B14"), None, ""),
    ("B61", second("a 0100 single B61"), 3, "a scale is"),
    ("B-61", second("a 0100 single B-61"), 3, "a scale is"),
    ("B60 and B-60", second("a 0100 single B60\nb 0100 triple B-60"), None, ""),
    ("B alone", second("a 0100 single B"), 3, "a scale is"),
    ("a small b", second("a 0100 single b14"), 3, "a scale is"),
    ("a constant of 0", second("a 0100 single 0"), 3, "a scale is"),
    ("a constant of 0.00", second("a 0100 single 0.00"), 3, "a scale is"),
    ("a constant below 0", second("a 0100 single -5"), 3, "a scale is"),
    ("a constant of 16 digits", second("a 0100 single 1234567890123456"), 3, "a scale is"),
    ("a constant of 15 digits", second("a 0100 single 1234567.89012345"), None, ""),
    ("an exponent", second("a 0100 single 1e3"), 3, "a scale is"),
    ("two points", second("a 0100 single 1.2.3"), 3, "a scale is"),
    ("a scale of bits for a number", second("a 0100 single 14-3"), 3, "a scale is"),
    ("bit 0", second("a 0100 bits 0"), 3, "bits are"),
    ("bit 16", second("a 0100 bits 16"), 3, "bits are"),
    ("bits up", second("a 0100 bits 3-5"), 3, "bits are"),
    ("bits down to 0", second("a 0100 bits 3-0"), 3, "bits are"),
    ("bits with B", second("a 0100 bits B14"), 3, "bits are"),
    ("bit 16 in octal", second("a 0100 octal 16-1"), 3, "bits are"),
    ("all bits in octal", second("a 0100 octal 15-1"), None, ""),
    ("a unit of 17 characters", second("a 0100 single B14 " + "m" * 17), 3, "a unit is"),
    ("a unit of 16 characters", second("a 0100 single B14 " + "m" * 16), None, ""),
    ("a unit that is not ASCII", second("a 0100 single B14 °"), 3, ""),
    ("too many fields", second("a 0100 single B14 m x"), 3, "too many fields"),
    ("three fields", second("a 0100 single"), 3, "too few fields"),
    ("one field", second("a"), 3, "too few fields"),
    ("the first faulty line", second("a 0100 quad B14\n1b 0100 single B14"), 3, "unknown kind"),
    ("no quantity", "# nothing\n\n   \n", 0, "no line has a quantity"),
    ("an empty file", "", 0, "no line has a quantity"),
    ("64 columns", many(64, "single"), None, ""),
    ("65 columns", many(65, "single"), 65, "more than 64 columns"),
    ("63 columns of vectors", many(21, "vector"), None, ""),
    ("66 columns of vectors", many(22, "vector"), 22, "more than 64 columns"),
    ("carriage returns", "a 0100 single B14\r\n\r\nb 0101 single B14 m\r\n", None, ""),
    ("no line feed at the end", "a 0100 single B14", None, ""),
    ("a comment behind fields", "a 0100 single B14# m\n", None, ""),
    ("a file of 1 MiB", GOOD + "#" * (2**20 - len(GOOD) - 1) + "\n", None, ""),
    ("a file above 1 MiB", GOOD + "#" * (2**20 - len(GOOD)) + "\n", 0, "cannot read quantities"),
]
