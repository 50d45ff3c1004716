"""Turns bits of words in the examples' ropes, and judges in which order `agc-study repair` prints the sixteen repairs of each."""

import os

import judge
import sums
from merging import BANK, in_classic_order, total, with_parity, without_parity, write
from pages import target_of

PLACES = 36 * BANK
EXAMPLES = ("descent", "interpreter", "verbs", "pinball", "lander")


def operand_of(word, extracode):
    """Returns what a word as an order names: None, an address, or a channel as (channel,)."""
    code, quarter = word >> 12, word >> 10 & 3
    if not extracode and word in (3, 4, 6, 0o50017):
        return None
    if extracode and code == 0:
        return (word & 0o777,)
    in_erasable = code == 2 or (code == 1 and quarter == 0) or (code == 5 and not extracode) or (extracode and code == 6 and quarter == 0)
    address = word & (0o1777 if in_erasable else 0o7777)
    pair = not extracode and ((code == 2 and quarter == 0) or (code == 5 and quarter == 1)) or extracode and code in (3, 4)
    return (address - 1) & (0o1777 if in_erasable else 0o7777) if pair else address


def place_named(word, extracode, here):
    """Returns the place of fixed memory that a word as an order at a place surely names, or None."""
    named = operand_of(word, extracode)
    return target_of(here, named) if isinstance(named, int) else None


def is_legal(words, here, extracode, word):
    if extracode and word >> 9 == 7:
        return False  # EDRUPT
    named = operand_of(word, extracode)
    if isinstance(named, tuple):
        return 1 <= named[0] <= 0o35
    target = place_named(word, extracode, here)
    return target is None or words[target] != 0


def leads_to_extracode(word, extracode):
    return word >> 12 == 5 if extracode else word == 6


def extracodes(words):
    """Returns for each place whether its word is an extracode. Each bank but 03, which follows 02, begins with a basic order."""
    found, extracode = [], False
    for place, word in enumerate(words):
        if place % BANK == 0 and place != 3 * BANK:
            extracode = False
        found.append(extracode)
        extracode = leads_to_extracode(word, extracode)
    return found


def ends(word, extracode):
    """Returns whether an order does not go on to the next place: TCF, RESUME and TC Q."""
    return not extracode and ((word >> 12 == 1 and word >> 10 & 3 != 0) or word in (0o50017, 2))


def is_reached(words, here, extracode, word):
    """Returns whether the next place can be reached if a word is here."""
    after = here + 1
    if not ends(word, extracode) or words[after] == 0 or ends(words[after], False):
        return True
    if any(here >= back and words[here - back] >> 10 == 4 for back in (1, 2, 3)):
        return True  # a CCS skips there
    return any(place != here and place_named(other, False, place) == after for place, other in enumerate(words))


def rank_of(words, here, extracode, word):
    """Returns how plausible a word is at a place: by the sum of its bank, as an order, by the same word elsewhere, by the next word."""
    bank = words[here // BANK * BANK:here // BANK * BANK + BANK]
    bank[here % BANK] = word
    fits = total(bank) in (here // BANK, 0o77777 - here // BANK)
    legal = is_legal(words, here, extracode, word)
    elsewhere = any(other == word and place != here for place, other in enumerate(words))
    after, follows = here + 1, leads_to_extracode(word, extracode)
    follows = follows and not (after % BANK == 0 and after != 3 * BANK)
    sound = after < PLACES and is_legal(words, after, follows, words[after]) and is_reached(words, here, extracode, word)
    return fits, legal, elsewhere, sound


def has_unreached(words, here):
    """Returns whether a repair of a word makes the next place one that nothing reaches."""
    bare = [word >> 1 for word in words]
    extracode = extracodes(bare)[here]
    return not all(is_reached(bare, here, extracode, (words[here] ^ 1 << bit) >> 1) for bit in range(16))


def order_of_repairs(draw):
    """The sixteen repairs come by rank, and among equals by the bit that is turned, the parity bit first."""
    for name in EXAMPLES:
        with open(os.path.join(judge.TOP, f"examples/{name}/rope"), "rb") as file:
            data = file.read()
        classic = [data[at] << 8 | data[at + 1] for at in range(0, len(data), 2)]
        classic += [0] * (PLACES - len(classic))
        sound = in_classic_order([word & 0xFFFE for word in classic])  # the change of banks undoes itself
        judge.judge(f"order {name}: the order of banks", [word & 0xFFFE for word in classic], without_parity(in_classic_order(sound)))
        sound = [with_parity(word >> 1) if word else 0 for word in sound]
        used = [place for place, word in enumerate(sound) if word]
        for n in range(20):
            words, here = list(sound), draw.choice(used)
            words[here] ^= 1 << draw.randrange(16)
            if n % 5 and not has_unreached(words, here):
                continue
            write("image", words)
            bare = [word >> 1 for word in words]
            extracode = extracodes(bare)[here]
            ranked = sorted(((words[here] ^ 1 << bit) >> 1 for bit in range(16)), key=lambda word: rank_of(bare, here, extracode, word), reverse=True)
            lines = sums.run("repair", "image", "--form", "parity", "--most", "16")[1].decode().splitlines()
            judge.judge(f"order {name}: {here:05o}", [f"{word:05o}" for word in ranked], [line.split()[1] for line in lines if not line.startswith("#")])


GROUPS = (order_of_repairs,)
