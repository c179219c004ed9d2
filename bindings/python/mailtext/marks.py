"""The marks of the items of ordered lists."""

ROMAN = {1000: "m", 900: "cm", 500: "d", 400: "cd", 100: "c", 90: "xc", 50: "l", 40: "xl", 10: "x", 9: "ix"}
ROMAN |= {5: "v", 4: "iv", 1: "i"}
# Browsers write greater numbers by digits.
MOST_ROMAN = 3999


def marked(number: int, kind: str) -> str:
    """The mark of an item that has this number, by numbers, or as `a`, `A`, `i` and `I` say."""
    if kind in ("i", "I") and 0 < number <= MOST_ROMAN:
        text = roman(number)
    elif kind in ("a", "A") and number > 0:
        text = letters(number)
    else:
        return f"{number}. "
    return f"{text.upper() if kind.isupper() else text}. "


def roman(number: int) -> str:
    """A number as the Romans wrote it."""
    text = ""
    for value, digits in ROMAN.items():
        text += digits * (number // value)
        number %= value
    return text


def letters(number: int) -> str:
    """A number by letters: a to z, and then aa."""
    text = ""
    while number:
        number, digit = divmod(number - 1, 26)
        text = chr(ord("a") + digit) + text
    return text
