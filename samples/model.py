#!/usr/bin/env python3
"""A model of the rules in docs/: what the engine ought to answer, worked out from the definitions.

  model.py lines    reads lines and prints for each whether a fresh plate over bytes takes it:
                    `taken`, or `refused NUMBER LAYER ONE TWO`
  model.py script   reads a script of calls and prints what the program `script` prints
  model.py sheet    reads a sheet and an extent and prints what the program `sheetread` prints
  model.py tables   reads sheets and prints what the program `tables` prints
  model.py damage   reads lines and prints each, and behind it all its damages of one byte

It shares nothing with the engine. What is slow but plain is preferred to what is fast. Where a thing
can be said in two ways, both are worked out and compared (`assert`).
"""
import re
import sys
from functools import lru_cache
from itertools import product

BYTES, PIECES = 256, 9
MOST_BYTES, MOST_LEVELS, MOST_SYMBOLS, MOST_CODE = 1024, 16, 63, 65535
MOST_LINES, MOST_STATES, LONGEST_EXTENT = 8, 64, 32768
NO_MARK = 65535
LAYER = {1: 1, 2: 1, 3: 1, 4: 1, 5: 1, 6: 2, 7: 3, 8: 4, 9: 4, 10: 4, 21: 3, 22: 3, 23: 3, 24: 3, 25: 3}


class Refused(Exception):
    """A refusal; its arguments are number, layer and the two details (docs/REFUSALS.md)."""

    def __init__(self, number, one=0, two=0):
        super().__init__(number, LAYER[number], one, two)


# ---- texts (docs/SHEETS.md) ----

# The grammar of a line. `first` is a digit from 1 to 9, `digit` one from 0 to 9.
GRAMMAR = '''
line   = "(rule " number " " number " " form ")"
form   = "(sym " number " " number " " number ")"
form   = "(none)"
form   = "(star " form ")"
form   = "(seq " list ")"
form   = "(alt " list ")"
list   = form
list   = form " " list
number = "0"
number = first
number = first digit
number = first digit digit
number = first digit digit digit
number = first digit digit digit digit
'''
ONE_OF = {'first': b'123456789', 'digit': b'0123456789'}


def symbols_of(right):
    """The symbols of a right side: the name of a rule, or the bytes of which one must come."""
    for quoted, name in re.findall(r'"([^"]*)"|(\w+)', right):
        if name:
            yield ONE_OF.get(name, name)
        else:
            yield from (bytes([b]) for b in quoted.encode())


RULES = {}
for rule in GRAMMAR.strip().splitlines():
    left, right = rule.split('=')
    RULES.setdefault(left.strip(), []).append(tuple(symbols_of(right)))


class Prefix:
    """All ways in which some well-formed text can begin with a given prefix (Earley's item sets).

    An item is a rule, its right side, how many symbols of that are read, and the prefix at which it began.
    Each rule has some text, so every item can be completed: the prefix begins a text exactly if it has an item.
    """

    def __init__(self, items, goal=None):
        self.longer = {}
        self.items = set()
        todo = list(items) + [(goal, right, 0, self) for right in RULES.get(goal, ())]
        while todo:
            item = todo.pop()
            if item in self.items:
                continue
            self.items.add(item)
            name, right, read, origin = item
            if read == len(right):
                todo += [(n, r, i + 1, o) for n, r, i, o in origin.items if i < len(r) and r[i] == name]
            elif isinstance(right[read], str):
                todo += [(right[read], r, 0, self) for r in RULES[right[read]]]

    def on(self, byte):
        """The prefix that is one byte longer."""
        if byte not in self.longer:
            self.longer[byte] = Prefix((n, r, i + 1, o) for n, r, i, o in self.items
                                       if i < len(r) and isinstance(r[i], bytes) and byte in r[i])
        return self.longer[byte]


NOTHING = Prefix((), goal='line')


def prefix(text):
    here = NOTHING
    for byte in text:
        here = here.on(byte)
    return here


def begins(text):
    """Some well-formed text begins with this one, or is it."""
    return bool(prefix(text).items)


def well_formed(text):
    return any(n == 'line' and i == len(r) for n, r, i, o in prefix(text).items)


def bad_form(text):
    """The first byte at which the text stops being the beginning of a well-formed one, its end, or nothing."""
    for k in range(len(text)):
        if begins(text[:k]) and not begins(text[:k + 1]):
            return k
    return None if well_formed(text) else len(text)


TOKEN = re.compile(rb'\((?:rule|sym|none|star|seq|alt)|[0-9]+')


def faults(text, count):
    """All that is wrong with a text, as (byte, number)."""
    wrong = bad_form(text)
    if wrong is not None:
        yield wrong, 2
    # the bytes that may stand where they stand
    fit = text[:wrong]
    for k in range(len(fit)):
        if fit[k:k + 1] == b'(' and fit[:k + 1].count(b'(') - fit[:k + 1].count(b')') == MOST_LEVELS + 1:
            yield k, 3
    head, numbers, syms = b'', [], 0
    for token in TOKEN.finditer(fit):
        if token[0][:1] == b'(':
            head, numbers = token[0], []
            if head == b'(sym':
                syms += 1
                if syms == MOST_SYMBOLS + 1:
                    yield token.end() - 1, 5
            continue
        n = int(token[0])
        numbers.append(n)
        if head == b'(sym' and len(numbers) == 1:
            outside = n >= count
        elif head == b'(sym' and len(numbers) == 2:
            outside = n >= count or n < numbers[0]
        else:
            outside = n > MOST_CODE
        # the byte that ends the number must be there and fit
        if outside and token.end() < len(fit):
            yield token.end(), 4


def check_text(text, count):
    if not 1 <= len(text) <= MOST_BYTES:
        raise Refused(1)
    found = sorted(faults(text, count))
    if found:
        byte, number = found[0]
        raise Refused(number, byte)


def tree(text):
    """The nested tuples that a well-formed text is: ('rule', OPEN, CLOSE, form)."""
    stack = [[]]
    for part in re.findall(r'[()]|[^() ]+', text.decode()):
        if part == '(':
            stack.append([])
        elif part == ')':
            form = tuple(stack.pop())
            stack[-1].append(form)
        else:
            stack[-1].append(int(part) if part.isdigit() else part)
    return stack[0][0]


# ---- words (docs/WORDS.md), by structure ----

def words(form, longest, classes):
    """The words of a form that have at most `longest` pairs, all of classes from `classes`."""
    head, *parts = form
    if head == 'sym':
        low, high, code = parts
        return {((c, code),) for c in classes if low <= c <= high and longest >= 1}
    if head == 'none':
        return {()}
    if head == 'alt':
        return set().union(*(words(part, longest, classes) for part in parts))
    if head == 'seq':
        found = {()}
        for part in parts:
            found = joined(found, words(part, longest, classes), longest)
        return found
    found, grown = {()}, {()}
    while grown:
        grown = joined(grown, words(parts[0], longest, classes), longest) - found
        found |= grown
    return found


def joined(fronts, backs, longest):
    return {a + b for a, b in product(fronts, backs) if len(a) + len(b) <= longest}


@lru_cache(None)
def has_empty(form):
    head, *parts = form
    if head == 'seq':
        return all(has_empty(part) for part in parts)
    if head == 'alt':
        return any(has_empty(part) for part in parts)
    return head in ('none', 'star')


@lru_cache(None)
def rests(form, c):
    """How words of a form that begin with class c go on: pairs of the code of that class and a row of forms."""
    head, *parts = form
    if head == 'sym':
        low, high, code = parts
        return frozenset({(code, ())} if low <= c <= high else ())
    if head == 'alt':
        return frozenset().union(*(rests(part, c) for part in parts))
    if head == 'seq':
        return row_rests(tuple(parts), c)
    if head == 'star':
        return frozenset((code, row + (form,)) for code, row in rests(parts[0], c))
    return frozenset()


@lru_cache(None)
def row_rests(row, c):
    """The same for a row of forms, one word of each joined in order."""
    if not row:
        return frozenset()
    found = {(code, more + row[1:]) for code, more in rests(row[0], c)}
    return frozenset(found | row_rests(row[1:], c) if has_empty(row[0]) else found)


# ---- positions and clashes (docs/WORDS.md) ----

class Line:
    def __init__(self, text):
        _, self.open, self.close, self.form = tree(text)
        self.syms = []
        self.follow = {}
        nullable, first, last = self.sets(self.form)
        self.end = len(self.syms) + 1
        self.first = first | {self.end} if nullable else first
        for p in last:
            self.follow[p] |= {self.end}
        self.follow[self.end] = frozenset()

    def sets(self, form):
        """nullable, firstpos and lastpos of a form; adds to followpos."""
        head, *parts = form
        if head == 'sym':
            self.syms.append(tuple(parts))
            p = len(self.syms)
            self.follow[p] = frozenset()
            return False, frozenset({p}), frozenset({p})
        if head == 'none':
            return True, frozenset(), frozenset()
        nullable, first, last = zip(*(self.sets(part) for part in parts))
        if head == 'star':
            self.add(last[0], first[0])
            return True, first[0], last[0]
        if head == 'alt':
            return any(nullable), frozenset().union(*first), frozenset().union(*last)
        n = len(parts)
        for i in range(n):
            for j in range(i + 1, n):
                if all(nullable[i + 1:j]):
                    self.add(last[i], first[j])
        return (all(nullable), frozenset().union(*(first[i] for i in range(n) if all(nullable[:i]))),
                frozenset().union(*(last[i] for i in range(n) if all(nullable[i + 1:]))))

    def add(self, positions, followers):
        for p in positions:
            self.follow[p] |= followers

    def holds(self, p, c):
        return p != self.end and self.syms[p - 1][0] <= c <= self.syms[p - 1][1]

    def move(self, positions, c):
        return frozenset().union(*(self.follow[p] for p in positions if self.holds(p, c)))

    def overlap(self, p, q):
        return self.end not in (p, q) and any(self.holds(q, c) for c in range(self.syms[p - 1][0], self.syms[p - 1][1] + 1))

    def meeting(self):
        """The pairs of positions that meet, each with the length of the shortest string that ends at both."""
        found, length = {}, 1
        next_pairs = set(product(self.first, self.first))
        while next_pairs:
            new = {(p, q) for p, q in next_pairs if (p, q) not in found and self.overlap(p, q)}
            found.update(dict.fromkeys(new, length))
            next_pairs = {pair for p, q in new for pair in product(self.follow[p], self.follow[q])}
            length += 1
        return found

    def clash(self):
        """The positions that refusal 6 names, or nothing."""
        pairs = {pair: length for pair, length in self.meeting().items()
                 if pair[0] < pair[1] and self.syms[pair[0] - 1][2] != self.syms[pair[1] - 1][2]}
        if len(self.syms) <= 3:
            self.compare(pairs)
        return min(pairs) if pairs else None

    def compare(self, pairs):
        """The same from the words: looks at all of them up to a length at which a clash must show."""
        classes = {low for low, high, code in self.syms}
        longest = min(pairs.values(), default=2) + len(self.syms)
        settled, clashes = {}, False
        for word in words(self.form, longest, classes):
            for place in range(len(word)):
                string = tuple(c for c, code in word[:place + 1])
                clashes |= settled.setdefault(string, word[place][1]) != word[place][1]
        assert clashes == bool(pairs), self.form

    def walk(self, classes):
        """Of each front of a class string: the codes of its pairs if some word begins so, and whether it is a word."""
        rows, positions, codes = frozenset({(self.form,)}), self.first, []
        for c in classes:
            steps = {step for row in rows for step in row_rests(row, c)}
            rows, positions = frozenset(row for code, row in steps), self.move(positions, c)
            if not steps:
                return
            (code,) = {code for code, row in steps}
            codes.append(code)
            is_word = any(all(has_empty(form) for form in row) for row in rows)
            assert is_word == (self.end in positions)
            yield codes, is_word


# ---- plates (docs/PLATES.md) ----

class Plate:
    def __init__(self, count=BYTES):
        self.count, self.lines, self.built = count, [], False

    def take(self, text):
        if len(self.lines) == MOST_LINES:
            raise Refused(21)
        check_text(text, self.count)
        line = Line(text)
        clash = line.clash()
        if clash:
            raise Refused(6, *clash)
        self.lines.append(line)
        self.built = False
        return len(self.lines) - 1

    def strike(self):
        if not self.lines:
            raise Refused(22)
        self.lines.pop()
        self.built = False
        return len(self.lines)

    def build(self):
        if not self.lines:
            raise Refused(22)
        states = [tuple(line.first for line in self.lines)]
        for state in states:
            for c in range(self.count):
                reached = tuple(line.move(positions, c) for line, positions in zip(self.lines, state))
                if any(reached) and reached not in states:
                    states.append(reached)
            if len(states) > MOST_STATES:
                self.built = False
                raise Refused(23)
        self.built, self.states = True, states
        return len(states)

    # ---- pieces (docs/READING.md) ----

    def piece(self, extent, place):
        """The line, length and codes of the piece at a place, or nothing."""
        best = None
        for k, line in enumerate(self.lines):
            length = 0
            for n, (codes, is_word) in enumerate(line.walk(extent[place:]), 1):
                if is_word:
                    length, found = n, tuple(codes)
            if length > (best[1] if best else 0):
                best = k, length, (line.open,) + found + (line.close,)
        return best

    def check_extent(self, extent):
        if not self.built:
            raise Refused(24)
        if len(extent) > LONGEST_EXTENT:
            raise Refused(8)

    def read(self, extent, cells):
        """The pieces listed, and the three numbers."""
        self.check_extent(extent)
        listed, place = [], 0
        while True:
            if place == len(extent):
                return listed, (len(listed), place, 0)
            piece = self.piece(extent, place)
            if piece is None:
                return listed, (len(listed), place, 1)
            if len(listed) == cells:
                return listed, (len(listed), place, 2)
            line, length, _ = piece
            listed.append((line, place, length))
            place += length

    # ---- play (docs/DOERS.md) ----

    def play(self, extent, doer):
        """The four numbers."""
        self.check_extent(extent)
        pieces, place = 0, 0
        while True:
            if place == len(extent):
                return pieces, place, 0, 0
            piece = self.piece(extent, place)
            if piece is None:
                return pieces, place, 0, 1
            _, length, codes = piece
            marks = (NO_MARK, *extent[place:place + length], NO_MARK)
            for taken, (code, mark) in enumerate(zip(codes, marks)):
                if not doer.give(code, mark):
                    return pieces, place, taken, 3
            pieces += 1
            place += length


class Tape:
    def __init__(self, cells):
        self.cells, self.held = cells, []

    def give(self, code, mark):
        if len(self.held) == self.cells:
            return False
        self.held.append(code)
        return True


class Slip:
    MOST = 999_999_999_999

    def __init__(self):
        self.registers = [0] * 8

    def give(self, code, mark):
        if code == 0:
            return True
        kind, r = divmod(code, 16)
        if r > 7 or kind not in (1, 2, 3) or (kind == 2 and not 48 <= mark <= 57):
            return False
        old = self.registers[r]
        new = {1: 0, 2: old * 10 + mark - 48, 3: old + 1}[kind]
        if new > self.MOST:
            return False
        self.registers[r] = new
        return True


# ---- commands ----

def lines_of(data):
    """Each line is ended by byte 10; the last one may lack it."""
    found = data.split(b'\n')
    return found if found[-1] else found[:-1]


def verdict(text):
    try:
        Plate().take(text)
        return 'taken'
    except Refused as refusal:
        return ' '.join(map(str, ('refused', *refusal.args)))


LIST_CELLS, TAPE_CELLS, MOST_ROOM, MOST_LENGTH = 12, 16, 64, 40_000


def call_of(line):
    """A call of a script: its name, its text and its room; or nothing."""
    word, _, rest = line.partition(b' ')
    if word in (b'take', b'strike', b'build', b'play'):
        return word.decode(), rest, 0
    if word in (b'read', b'long') and b' ' in rest:
        room, _, text = rest.partition(b' ')
        if word == b'long':
            text = b'1' * number_of(text, MOST_LENGTH)
        return 'read', text, number_of(room, MOST_ROOM)
    return None


def number_of(word, most):
    return min(int(word), most) if word.isdigit() else 0


def make(calls, doer):
    """Makes the calls on a fresh plate and prints the answers, then the listed pieces (docs/RUNS.md)."""
    plate, left, listed = Plate(), LIST_CELLS, []
    for name, text, room in calls:
        cells = min(room, left)
        left -= cells
        try:
            if name == 'take':
                print('number', plate.take(text))
            elif name == 'strike':
                print('number', plate.strike())
            elif name == 'build':
                print('number', plate.build())
            elif name == 'read':
                pieces, answer = plate.read(text, cells)
                listed += pieces
                print('read', *answer)
            else:
                print('played', *plate.play(text, doer))
        except Refused as refusal:
            print('refused', *refusal.args)
    for piece in listed:
        print('piece', *piece)


def script(data):
    calls = []
    for line in lines_of(data):
        if line:
            call = call_of(line)
            if call:
                calls.append(call)
            continue
        slip, tape = Slip(), Tape(TAPE_CELLS)
        make(calls, slip)
        print(*slip.registers, 'on the slip')
        make(calls, tape)
        print(*tape.held, 'on the tape')
        calls = []


def sheet(data):
    """The program sheetread (docs/SHEETREAD.md)."""
    plate, extent = Plate(), data[:60_000]
    try:
        while extent:
            line, _, extent = extent.partition(b'\n')
            if not line:
                break
            plate.take(line)
        plate.build()
        listed, (_, reached, why) = plate.read(extent, 2048)
    except Refused as refusal:
        print('refused', len(plate.lines), *refusal.args)
        return
    for line, place, length in listed:
        _, _, codes = plate.piece(extent, place)
        print('piece', line, place, length, *codes)
    print('end', reached, why)


def print_table(count, lines):
    plate = Plate(count)
    try:
        for line in lines:
            plate.take(line)
        print('states', plate.build())
    except Refused as refusal:
        print('refused', refusal.args[0])
        return
    for s, state in enumerate(plate.states):
        for k, positions in enumerate(state):
            if positions:
                print('set', s, k, *sorted(positions))
    for s, state in enumerate(plate.states):
        for c in range(count):
            reached = tuple(line.move(positions, c) for line, positions in zip(plate.lines, state))
            if any(reached):
                print('move', s, c, plate.states.index(reached))


def tables(data):
    """The program tables: the table of each sheet, which begins with its alphabet and ends with an empty line."""
    count, lines = BYTES, []
    for line in lines_of(data):
        if not line:
            print_table(count, lines)
            lines = []
        elif line in (b'bytes', b'pieces'):
            count = BYTES if line == b'bytes' else PIECES
        else:
            lines.append(line)


def damages(line):
    """A line with every byte replaced by one of six, left out, or doubled."""
    for k in range(len(line)):
        for new in (b' ', b')', b'(', b'0', b'9', b'x', b'', line[k:k + 1] * 2):
            yield line[:k] + new + line[k + 1:]


def damage(data):
    for line in lines_of(data):
        for text in dict.fromkeys([line, *damages(line)]):
            sys.stdout.buffer.write(text + b'\n')


def main():
    command, data = sys.argv[1:], sys.stdin.buffer.read()
    if command == ['lines']:
        for line in lines_of(data):
            print(verdict(line))
    elif command == ['script']:
        script(data)
    elif command == ['sheet']:
        sheet(data)
    elif command == ['tables']:
        tables(data)
    elif command == ['damage']:
        damage(data)
    else:
        sys.exit(__doc__)


if __name__ == '__main__':
    main()
