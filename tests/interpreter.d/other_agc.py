"""Another AGC, in plain Python, written from docs/SPECIFICATION.md alone: it shares nothing with the emulator. It is slow, and has no
superbank, scaler, TIME6, pulses, RXOR, MSU, AUG, DIM or stop address."""

KEYS = {"0": 0o20, "8": 0o10, "9": 0o11, "VERB": 0o21, "RSET": 0o22, "KEYREL": 0o31, "+": 0o32, "-": 0o33, "ENTR": 0o34, "CLR": 0o36, "NOUN": 0o37}
KEYS.update({str(n): n for n in range(1, 8)})
ORDER = [2, 3, 0, 1, *range(4, 0o44)]  # of the banks in a rope file
A, L, Q, EB, FB, Z, BB, ZERO = range(8)
ZRUPT, BRUPT, CYR, SR, CYL, EDOP, TIME2, TIME1 = 0o15, 0o17, 0o20, 0o21, 0o22, 0o23, 0o24, 0o25
TIMERS = ((TIME1, 10240, None), (0o26, 10240, 3), (0o27, 7680, 4), (0o30, 5120, 2))  # the cell, the first pulse, the interrupt of its carry
PERIOD, PULSES = 10240, 12  # pulses from step to step, and in a cycle


def value(word, bits):
    """A word as a number, -0 as 0."""
    top = 1 << bits - 1
    return word - (2 * top - 1) if word & top else word


def pattern(number):
    """The wide word of a number."""
    return number if number >= 0 else -number ^ 0o177777


def wide(word):
    """A word of 15 bits with bit 15 copied to bit 16."""
    return word & 0o77777 | (word & 0o40000) << 1


def narrow(word):
    """A wide word corrected for overflow: its sign, and the low fourteen digits."""
    return word >> 1 & 0o40000 | word & 0o37777


def overflow(word):
    """+1, -1 or 0."""
    return (0, 1, -1, 0)[word >> 14]


def add(a, b):
    """The sum of wide words, with the end-around carry."""
    total = a + b
    return (total & 0o177777) + (total >> 16)


class Machine:
    def __init__(self, rope, script):
        self.banks = {bank: [0] * 1024 for bank in range(0o50)}
        for n in range(0, len(rope), 2):
            self.banks[ORDER[n // 2048]][n // 2 % 1024] = (rope[n] << 8 | rope[n + 1]) >> 1
        self.cells = [[0] * 256 for _ in range(8)]
        self.channels = {0o30: 0o37777, 0o31: 0o77777, 0o32: 0o77777, 0o33: 0o77777}
        self.events = [(int(words[0]), words[1:]) for words in map(str.split, script.splitlines()) if words and words[0][0] != "#"]
        self.cycle = self.began = 0
        self.requests, self.is_serving, self.is_inhibited, self.is_extra, self.was_prefix = set(), False, False, False, False
        self.steps = [0] * len(TIMERS)
        self.hand, self.log = self.banks[2][0], []
        self.cells[0][Z] = 0o4001

    # memory

    def erasable(self, address):
        bank = address >> 8 if address < 0o1400 else self.cells[0][EB] >> 8 & 7
        return bank, address & 0o377

    def read(self, address):
        """The wide word at an address."""
        if address >= 0o2000:
            bank = (2 if address < 0o6000 else 3) if address >= 0o4000 else self.cells[0][FB] >> 10
            return wide(self.banks[bank][address & 0o1777])
        bank, offset = self.erasable(address)
        if bank == 0 and offset == ZERO:
            return 0
        word = self.cells[bank][offset]
        return word if bank == 0 and offset in (A, Q) else wide(word)

    def write(self, address, word):
        if address >= 0o2000:
            return
        bank, offset = self.erasable(address)
        low = self.cells[0]
        if bank or offset > EDOP:
            self.cells[bank][offset] = narrow(word)
        elif offset in (A, Q):
            low[offset] = word
        elif offset == EB:
            low[EB] = narrow(word) & 0o3400
        elif offset == FB:
            low[FB] = narrow(word) & 0o76000
        elif offset == Z:
            low[Z] = narrow(word) & 0o7777
        elif offset == BB:
            low[FB], low[EB] = narrow(word) & 0o76000, (narrow(word) & 7) << 8
        elif offset != ZERO:
            low[offset] = self.edited(offset, narrow(word))
        low[BB] = low[FB] | low[EB] >> 8

    def edited(self, offset, word):
        ways = {CYR: word >> 1 | (word & 1) << 14, SR: word >> 1 | word & 0o40000, CYL: word << 1 & 0o77777 | word >> 14, EDOP: word >> 7 & 0o177}
        return ways.get(offset, word)

    def take(self, address):
        """Reads a word; an editing register is edited once more."""
        word = self.read(address)
        if self.is_plain(address, (CYR, SR, CYL, EDOP)):
            self.write(address, word)
        return word

    def is_plain(self, address, offsets):
        return address < 0o2000 and self.erasable(address)[0] == 0 and self.erasable(address)[1] in offsets

    def exchange(self, one, other):
        """Exchanges a register and a cell."""
        mine, theirs = self.read(one), self.read(other)
        self.write(one, theirs)
        self.write(other, mine)

    # channels

    def channel(self, number):
        low = self.cells[0]
        if number in (1, 2):
            return wide(low[L]) if number == 1 else low[Q]
        return wide(self.channels.get(number, 0))

    def put(self, number, word):
        if number in (1, 2):
            self.write(number, word)
        else:
            self.channels[number] = narrow(word) & (0o160 if number == 7 else 0o77777)
            self.log.append((self.began, number, self.channels[number]))

    # boundaries

    def run(self, limit):
        while self.cycle < limit:
            if self.events and self.events[0][0] <= self.cycle:
                self.happen(*self.events.pop(0)[1])
            elif not (self.timer() or self.interrupt()):
                self.order()

    def happen(self, what, *words):
        if what == "key":
            self.channels[0o15] = KEYS[words[0]]
            self.requests.add(5)
        elif what == "pro":
            self.channels[0o32] = self.channels[0o32] & 0o57777 | (0o20000 if words[0] == "up" else 0)
        elif what == "poke":
            self.cells[int(words[0], 8)][int(words[1], 8)] = int(words[2], 8)
        else:
            raise ValueError(f"this machine has no {what}")

    def timer(self):
        for n, (cell, first, number) in enumerate(TIMERS):
            if first + self.steps[n] * PERIOD <= self.cycle * PULSES:
                self.steps[n] += 1
                self.cycle += 1
                if self.counts(cell):
                    if number:
                        self.requests.add(number)
                    else:
                        self.counts(TIME2)
                        self.cycle += 1
                return True
        return False

    def counts(self, cell):
        """A PINC. Returns whether the cell carries."""
        total = add(wide(self.cells[0][cell]), 1)
        self.cells[0][cell] = 0 if overflow(total) else total & 0o77777
        return overflow(total) != 0

    def interrupt(self):
        if not self.requests or self.is_serving or self.is_inhibited or self.was_prefix or overflow(self.cells[0][A]):
            return False
        number = min(self.requests)
        self.requests.remove(number)
        low = self.cells[0]
        low[ZRUPT], low[BRUPT] = low[Z], self.hand
        vector = 0o4000 + 4 * number
        self.hand, low[Z] = narrow(self.read(vector)), vector + 1
        self.is_serving = True
        self.cycle += 3
        return True

    def next(self, skip=0, index=0):
        """Takes the word at Z into hand."""
        low = self.cells[0]
        at = low[Z] + skip & 0o7777
        self.hand = narrow(add(self.read(at), index)) if index else narrow(self.read(at))
        low[Z] = at + 1 & 0o7777

    def order(self):
        self.began, self.was_prefix = self.cycle, False
        word, is_extra, self.is_extra = self.hand, self.is_extra, False
        code, quarter, k, k10 = word >> 12, word >> 10 & 3, word & 0o7777, word & 0o1777
        self.cycle += 2
        (self.extra if is_extra else self.basic)(code, quarter, k, k10)

    def jump(self, address):
        self.cycle -= 1
        self.cells[0][Z] = address
        self.next()

    def basic(self, code, quarter, k, k10):
        low, skip = self.cells[0], 0
        if code == 0:
            self.transfer(k)
            return
        if code == 1:
            if quarter:
                return self.jump(k)
            word = self.take(k10)
            low[A] = max(abs(value(word, 16)) - 1, 0)
            skip = (2 if word & 0o100000 else 0) + (word in (0, 0o177777))
        elif code == 2:
            (self.second if quarter else self.das)(quarter, k10)
        elif code in (3, 4):
            low[A] = self.take(k) ^ (0o177777 if code == 4 else 0)
        elif code == 5:
            if quarter == 0 and k10 == BRUPT:
                low[Z], self.hand, self.is_serving = low[ZRUPT] & 0o7777, low[BRUPT], False
                return
            if quarter == 0:
                return self.index(k10)
            self.store(quarter, k10)
        elif code == 6:
            low[A] = add(low[A], self.take(k))
        elif self.is_plain(k, (A, Q)):
            low[A] &= self.take(k)
        else:
            low[A] = wide(narrow(low[A]) & narrow(self.take(k)))
        self.next(skip)

    def transfer(self, k):
        """TC, RELINT, INHINT and EXTEND."""
        self.cycle -= 1
        if k in (3, 4):
            self.is_inhibited = k == 4
        elif k == 6:
            self.is_extra = self.was_prefix = True
        else:
            word = self.read(k)
            self.cells[0][Q], self.cells[0][Z], self.hand = wide(self.cells[0][Z]), k + 1 & 0o7777, narrow(word)
            return
        self.next()

    def second(self, quarter, k):
        """LXCH, INCR and ADS."""
        low = self.cells[0]
        if quarter == 1:
            return self.exchange(L, k)
        total = add(self.read(k), 1 if quarter == 2 else low[A])
        self.write(k, total)
        if quarter == 3:
            low[A] = total

    def das(self, _, k):
        low, upper = self.cells[0], k - 1 & 0o1777
        self.cycle += 1
        lower = add(wide(low[L]), self.read(k))
        self.write(k, wide(narrow(lower)))
        total = add(low[A], self.read(upper))
        if overflow(lower):
            total = add(total, pattern(overflow(lower)))
        if k == 1:
            low[A] = total
            return
        self.write(upper, wide(narrow(total)))
        low[L], low[A] = 0, pattern(overflow(total))

    def index(self, k, is_extra=False):
        word = self.take(k)
        self.was_prefix, self.is_extra = True, is_extra
        self.hand = narrow(add(self.read(self.cells[0][Z]), word))
        self.cells[0][Z] = self.cells[0][Z] + 1 & 0o7777

    def store(self, quarter, k):
        """DXCH, TS and XCH."""
        low = self.cells[0]
        if quarter == 1:
            self.cycle += 1
            self.exchange(L, k)
            self.exchange(A, k - 1 & 0o1777)
        elif quarter == 3:
            self.exchange(A, k)
        else:
            word, over = low[A], overflow(low[A])
            if over:
                low[Z] = low[Z] + 1 & 0o7777
            self.write(k, word)
            if over and not self.is_plain(k, (A,)):
                low[A] = pattern(over)

    def extra(self, code, quarter, k, k10):
        low = self.cells[0]
        if code == 0:
            self.inout(k >> 9, k & 0o777)
        elif code in (1, 6) and quarter:
            word = low[A]
            if word in (0, 0o177777) if code == 1 else word & 0o100000 or word == 0:
                return self.jump(k)
        elif code == 1:
            self.divide(k10)
        elif code == 2 and quarter == 1:
            self.exchange(Q, k10)
        elif code in (3, 4):
            self.cycle += 1
            flip = 0o177777 if code == 4 else 0
            self.write(L, self.take(k) ^ flip)
            low[A] = self.take(k - 1 & 0o7777) ^ flip
        elif code == 5:
            return self.index(k, True)
        elif code == 6:
            low[A] = add(low[A], self.take(k10) ^ 0o177777)
        elif code == 7:
            self.cycle += 1
            self.multiply(narrow(low[A]), narrow(self.read(k)))
        else:
            raise ValueError("this machine has no MSU, AUG and DIM")
        self.next()

    def inout(self, kind, number):
        word, low = self.channel(number), self.cells[0]
        if kind == 1:
            return self.put(number, low[A])
        mine, theirs = (low[A], word) if number == 2 else (wide(narrow(low[A])), wide(narrow(word)))
        low[A] = word if kind == 0 else mine & theirs if kind < 4 else mine | theirs
        if kind in (3, 5):
            self.put(number, low[A])

    def multiply(self, a, b):
        is_minus = (a ^ b) >> 14 == 1 and b not in (0, 0o77777)
        product = abs(value(a, 15)) * abs(value(b, 15))
        flip = 0o177777 if is_minus else 0
        self.cells[0][A], self.cells[0][L] = product >> 14 ^ flip, (product & 0o37777 ^ flip) & 0o77777

    def divide(self, k):
        low, divisor = self.cells[0], narrow(self.read(k))
        self.cycle += 4
        a = narrow(low[A])
        number = 16384 * value(a, 15) + value(low[L], 15)
        sign = (a if a not in (0, 0o77777) else low[L]) >> 14
        size, by = abs(number), abs(value(divisor, 15))
        if by == 0 or size > 16384 * by:
            raise ValueError("no quotient")
        quotient, rest = (16383, by) if size == 16384 * by else divmod(size, by)
        low[A] = quotient ^ (0o177777 if sign != divisor >> 14 else 0)
        low[L] = rest ^ (0o77777 if sign else 0)
