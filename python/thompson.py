"""Thompson's group F: each element listed once. The calls of libthompson.so from Python.

A word is letters a (x0), A (its inverse), b (x1), B (its inverse), at most LIMIT of them; the rightmost letter acts
first. A text is subscript notation, as in x0^2 x1 x6 x3^-1 x0^-2. A record is the bytes of an element's reduced form:
two words get the same record just when they are the same element.

>>> record('BAbab') == record('AAbaa')
True
>>> Element('ab') * Element('B')
Element('x0')

What the library refuses is raised as Refused, with the number and the place of the refusal.

>>> record('axb')
Traceback (most recent call last):
    ...
thompson.Refused: refused 2 at 1: a byte that is no letter

Nothing is kept from one call to the next, and every call has memory of its own, so any number of threads may call at
once. A thread that calls needs a stack of 900,000 bytes, and some more for Python (see threading.stack_size).
"""
import collections
import ctypes
import ctypes.util
import operator
import os
import threading

__all__ = [
    'LIMIT', 'FULL_TABLE', 'REFUSED_TAG', 'REFUSED_ITEM', 'CARETS', 'REGISTER_MOST', 'REGISTER_FIRST',
    'TABLE', 'RECORD', 'LIST', 'TEXT', 'SHAPE', 'ENTRY', 'REGISTER',
    'TOO_MANY_LETTERS', 'NOT_LETTER', 'BAD_FRAME', 'BAD_ENTRY', 'NOT_REDUCED', 'SHORT_TABLE', 'SHORT_BUFFER',
    'LONG_SPELLING', 'MISSPELLED', 'LARGE_EXPONENTS', 'HIGH_INDEX', 'BAD_REGISTER', 'HOLDER_FULL', 'REGISTER_FULL',
    'NOT_TREE', 'REASONS', 'Refused',
    'record', 'records', 'check', 'word', 'text', 'length', 'label_length', 'shapes', 'tree_pair', 'same',
    'Element', 'Entered', 'Entry', 'Register',
]

# The constants and the sizes of include/thompson.h, under its names without THOMPSON_.

LIMIT = 4096
"""The most letters of a word; also the highest index and the highest sum of exponents of a record or a text."""


def TABLE(n):
    """The entries that each table needs for a word of n letters."""
    return n + 1


FULL_TABLE = TABLE(LIMIT)
"""The entries that each table needs for any word, text or list."""


def RECORD(n):
    """The bytes that the record buffer needs for a word of n letters, or a text whose exponents' sizes sum to n."""
    return 6 + 4 * n


REFUSED_TAG = 0x0F
"""The first byte of the item of a refused word in what the list call writes."""

REFUSED_ITEM = 6
"""The bytes of that item."""


def LIST(lines, size):
    """The bytes that the output needs for a list of so many lines, which have `size` bytes without their ends."""
    return 6 * lines + 4 * size


def TEXT(n):
    """Bytes that are enough for the text of a record whose exponents sum to n."""
    return 9 * n


CARETS = 2 * LIMIT + 1
"""The most carets of a tree."""


def SHAPE(n):
    """The bytes of the shape of a tree with n carets."""
    return 2 * n + 1


REGISTER_MOST = 65536
"""The most bytes of a register."""

REGISTER_FIRST = 7
"""The bytes of a register without entries."""


def ENTRY(r):
    """The bytes of an entry with a record of r bytes."""
    return 9 + r


def REGISTER(k, n):
    """Bytes that are enough for a register of k entries, each the element of a word of at most n letters."""
    return REGISTER_FIRST + k * ENTRY(RECORD(n))


TOO_MANY_LETTERS = 1
NOT_LETTER = 2
BAD_FRAME = 3
BAD_ENTRY = 4
NOT_REDUCED = 5
SHORT_TABLE = 6
SHORT_BUFFER = 7
LONG_SPELLING = 8
MISSPELLED = 9
LARGE_EXPONENTS = 10
HIGH_INDEX = 11
BAD_REGISTER = 12
HOLDER_FULL = 13
REGISTER_FULL = 14
NOT_TREE = 15

REASONS = {
    TOO_MANY_LETTERS: 'more letters than the limit',
    NOT_LETTER: 'a byte that is no letter',
    BAD_FRAME: 'the two fields do not frame the record',
    BAD_ENTRY: 'an entry that breaks a rule',
    NOT_REDUCED: 'the form is not reduced',
    SHORT_TABLE: 'a table that is too short',
    SHORT_BUFFER: 'an output buffer that is too short',
    LONG_SPELLING: 'a spelling with more letters than the limit',
    MISSPELLED: 'a misspelled token, or an index above the limit',
    LARGE_EXPONENTS: 'exponents whose sizes sum above the limit',
    HIGH_INDEX: 'a reduced form with an index above the limit',
    BAD_REGISTER: 'no well-formed register',
    HOLDER_FULL: 'a holder with four entries',
    REGISTER_FULL: 'an entry that does not fit the register',
    NOT_TREE: 'no tree within the bound, or no such node or leaf',
}
"""The refusals by number, in words."""

_VERDICTS = ('different', 'same', 'inverse')


class Refused(ValueError):
    """A refusal of the library: `number`, `place`, `reason` in words, and `word`.

    `word` is 1 or 2 where two words were handed over, else None. The numbers and what their places mean are those of
    include/thompson.h.

    >>> try:
    ...     same('ab', 'a?')
    ... except Refused as refusal:
    ...     print(refusal.number, refusal.place, refusal.word, refusal.reason)
    ...     print(refusal)
    2 1 2 a byte that is no letter
    second word refused 2 at 1: a byte that is no letter
    """

    def __init__(self, number, place, word=None):
        super().__init__(number, place, word)
        self.number = number
        self.place = place
        self.word = word

    @property
    def reason(self):
        return REASONS.get(self.number, 'unknown refusal')

    def __str__(self):
        who = 'second word ' if self.word == 2 else ''
        return '%srefused %d at %d: %s' % (who, self.number, self.place, self.reason)

    def __repr__(self):
        which = '' if self.word is None else ', word=%d' % self.word
        return 'Refused(%d, %d%s)' % (self.number, self.place, which)


# The library.

class _Answer(ctypes.Structure):
    _fields_ = [('refusal', ctypes.c_uint64), ('value', ctypes.c_uint64)]


class _Filing(ctypes.Structure):
    _fields_ = [('refusal', ctypes.c_uint64), ('value', ctypes.c_uint64), ('present', ctypes.c_uint64),
                ('word', ctypes.c_uint64)]


# What is lent: bytes for reading, and bytes or 16-bit numbers for writing, each with its length in elements.
_READ = [ctypes.c_char_p, ctypes.c_size_t]
_WRITE = [ctypes.POINTER(ctypes.c_uint8), ctypes.c_size_t]
_WRITE_TABLE = [ctypes.POINTER(ctypes.c_uint16), ctypes.c_size_t]
_WORD = _READ + _WRITE_TABLE + _WRITE_TABLE + _WRITE

_CALLS = {
    'thompson_word_to_record': (_Answer, _WORD),
    'thompson_list_to_records': (_Answer, _WORD),
    'thompson_check_record': (_Answer, _READ),
    'thompson_record_to_word': (_Answer, _READ + _WRITE),
    'thompson_text_to_record': (_Answer, _WORD),
    'thompson_record_to_text': (_Answer, _READ + _WRITE),
    'thompson_record_to_tree_pair': (_Answer, _READ + _WRITE + _WRITE),
    'thompson_record_to_length': (_Answer, _READ),
    'thompson_record_to_label_length': (_Answer, _READ),
    'thompson_same_element': (_Answer, _WORD + _WORD),
    'thompson_enter_word': (_Filing, _WORD + [ctypes.c_uint16] + _WRITE),
    'thompson_check_register': (_Answer, _WRITE),
    'thompson_live_entries': (_Answer, _WRITE + [ctypes.c_uint16]),
}


def _names():
    """The names under which the library is looked for, in order."""
    named = os.environ.get('THOMPSON_LIBRARY')
    if named:
        yield named
        return
    here = os.path.dirname(os.path.abspath(__file__))
    yield os.path.join(here, 'libthompson.so')
    yield os.path.join(os.path.dirname(here), 'lib', 'libthompson.so')
    found = ctypes.util.find_library('thompson')
    if found:
        yield found
    yield 'libthompson.so'


def _load():
    """The first library of these names that has all the calls."""
    tried = []
    for name in _names():
        try:
            library = ctypes.CDLL(name)
            for call, (answer, lent) in _CALLS.items():
                function = getattr(library, call)
                function.restype = answer
                function.argtypes = lent
            return library
        except (OSError, AttributeError) as error:
            tried.append('%s (%s)' % (name, error))
    raise ImportError('the library libthompson.so was not found; tried: ' + '; '.join(tried))


_library = _load()

_Table = ctypes.c_uint16 * FULL_TABLE
_Record = ctypes.c_uint8 * RECORD(LIMIT)
_Letters = ctypes.c_uint8 * LIMIT
_Text = ctypes.c_uint8 * TEXT(LIMIT)
_Shape = ctypes.c_uint8 * SHAPE(CARETS)


def _word_bytes(given):
    """The bytes of a word or text. A str that is not ASCII has bytes that are no letters, and the library says so."""
    if isinstance(given, str):
        return given.encode('utf-8', 'surrogatepass')
    if isinstance(given, (bytes, bytearray, memoryview)):
        return bytes(given)
    raise TypeError('a word is str or bytes, not %s' % type(given).__name__)


def _record_bytes(given):
    if isinstance(given, (bytes, bytearray, memoryview)):
        return bytes(given)
    raise TypeError('a record is bytes, not %s' % type(given).__name__)


def _value(answer):
    if answer.refusal:
        raise Refused(answer.refusal, answer.value)
    return answer.value


def _lent(data):
    """A word with what the calls on words take: two tables and a record buffer, enough for any word or text."""
    buffer = _Record()
    return buffer, (data, len(data), _Table(), FULL_TABLE, _Table(), FULL_TABLE, buffer, len(buffer))


def _front(buffer, size):
    return bytes(memoryview(buffer)[:size])


def record(word):
    """The record of a word: letters, or subscript notation where its first character is x.

    >>> record('ba').hex()
    '0100080000000100020001020000'
    >>> record('x0^2 x1 x6 x3^-1 x0^-2').hex()
    '01000c0000000200010001000600010200080000000200030001'
    >>> record('').hex()
    '010000020000'
    >>> record('x0^1')
    Traceback (most recent call last):
        ...
    thompson.Refused: refused 9 at 0: a misspelled token, or an index above the limit

    Raises Refused: 1 or 2 for letters; 9, 10 or 11 for subscript notation.
    """
    data = _word_bytes(word)
    call = _library.thompson_text_to_record if data[:1] == b'x' else _library.thompson_word_to_record
    buffer, lent = _lent(data)
    return _front(buffer, _value(call(*lent)))


def records(words):
    """The records of many words, in letters, by one call: for each word its record, or its Refused, not raised.

    >>> [item if isinstance(item, Refused) else item.hex() for item in records(['ba', 'axb', 'A'])]
    ['0100080000000100020001020000', Refused(2, 1), '01000002000400000001']

    A line feed would end a word within the list that the call takes, so a word that has one is a ValueError.

    >>> records(['a', 'b\\n'])
    Traceback (most recent call last):
        ...
    ValueError: a line feed in word 1, counted from 0
    """
    if isinstance(words, (str, bytes, bytearray, memoryview)):
        raise TypeError('the words are a list, not one word')
    lines = [_word_bytes(word) for word in words]
    for i, line in enumerate(lines):
        if b'\n' in line:
            raise ValueError('a line feed in word %d, counted from 0' % i)
    data = b''.join(line + b'\n' for line in lines)
    size = LIST(len(lines), len(data) - len(lines))
    output = bytearray(max(size, 1))
    start = ctypes.byref(ctypes.c_uint8.from_buffer(output))
    _value(_library.thompson_list_to_records(data, len(data), _Table(), FULL_TABLE, _Table(), FULL_TABLE, start, size))
    items = []
    at = 0
    for _ in lines:
        if output[at] == REFUSED_TAG:
            end = at + REFUSED_ITEM
            items.append(Refused(output[at + 3], _number(output, at + 4, 2)))
        else:
            end = _field_end(output, _field_end(output, at))
            items.append(bytes(output[at:end]))
        at = end
    return items


def _number(data, at, size):
    return int.from_bytes(data[at:at + size], 'big')


def _field_end(data, at):
    """Where the field that begins at a place ends: a tag, a length of two bytes, and so many bytes."""
    return at + 3 + _number(data, at + 1, 2)


def check(record):
    """Nothing, where the bytes are a record; else Refused 3, 4 or 5 is raised.

    >>> check(bytes.fromhex('01000400010001020000'))
    >>> check(bytes.fromhex('010008000000010002000102000400000001'))
    Traceback (most recent call last):
        ...
    thompson.Refused: refused 5 at 0: the form is not reduced
    """
    data = _record_bytes(record)
    _value(_library.thompson_check_record(data, len(data)))


def word(record):
    """A word of the record's element: the powers of the form through their letters, freely reduced.

    It is not always a shortest one. Raises Refused: 3, 4 or 5; 8 where it would have more than LIMIT letters.

    >>> word(bytes.fromhex('01000c0000000200010001000600010200080000000200030001'))
    'aabAAAAAbaaaB'
    >>> word(record('x4096'))
    Traceback (most recent call last):
        ...
    thompson.Refused: refused 8 at 0: a spelling with more letters than the limit
    """
    data = _record_bytes(record)
    buffer = _Letters()
    size = _value(_library.thompson_record_to_word(data, len(data), buffer, len(buffer)))
    return _front(buffer, size).decode('ascii')


def text(record):
    """The record's form in subscript notation; the identity is the empty text. Raises Refused: 3, 4 or 5.

    >>> text(bytes.fromhex('01000c0000000200010001000600010200080000000200030001'))
    'x0^2 x1 x6 x3^-1 x0^-2'
    """
    data = _record_bytes(record)
    buffer = _Text()
    size = _value(_library.thompson_record_to_text(data, len(data), buffer, len(buffer)))
    return _front(buffer, size).decode('ascii')


def length(record):
    """The least number of letters of a word of the record's element. Raises Refused: 3, 4 or 5.

    >>> length(record('aabAAAAAbaaaB'))
    11
    """
    data = _record_bytes(record)
    return _value(_library.thompson_record_to_length(data, len(data)))


def label_length(record):
    """The same number as length, by Table 1 of Elder, Fusy and Rechnitzer. Raises Refused: 3, 4 or 5.

    >>> label_length(record('aabAAAAAbaaaB'))
    11
    """
    data = _record_bytes(record)
    return _value(_library.thompson_record_to_label_length(data, len(data)))


def shapes(record):
    """The shapes of the trees T- and T+ of the smallest tree pair, as two str. Raises Refused: 3, 4 or 5.

    A shape has a digit for each node, 1 for a caret and 0 for a leaf, a node before its left subtree before its right
    one; a tree of N carets has 2 N + 1 nodes.

    >>> shapes(record('b'))
    ('1010100', '1011000')
    """
    data = _record_bytes(record)
    minus, plus = _Shape(), _Shape()
    carets = _value(_library.thompson_record_to_tree_pair(data, len(data), minus, len(minus), plus, len(plus)))
    return tuple(_front(tree, SHAPE(carets)).translate(_DIGITS).decode('ascii') for tree in (minus, plus))


_DIGITS = bytes.maketrans(b'\0\1', b'01')


def tree_pair(record):
    """The trees T- and T+ of the smallest tree pair: a caret is a tuple of its two subtrees, a leaf is None.

    >>> tree_pair(record('b'))
    ((None, (None, (None, None))), (None, ((None, None), None)))

    Raises Refused: 3, 4 or 5. A tree may be CARETS deep, and Python itself does not print or compare tuples that are so
    deep; shapes gives the same trees as str.
    """
    return tuple(_tree(shape) for shape in shapes(record))


def _tree(shape):
    """The tree of a shape, from its last node to its first: the subtrees of a caret are then the last two made."""
    made = []
    for node in reversed(shape):
        made.append((made.pop(), made.pop()) if node == '1' else None)
    return made.pop()


def same(word1, word2):
    """Whether two words, in letters, are the same element, inverse elements or different ones.

    >>> same('BAbab', 'AAbaa'), same('ab', 'BA'), same('ab', 'ba')
    ('same', 'inverse', 'different')

    Raises Refused 1 or 2, whose `word` says which of the two it is.
    """
    _, lent1 = _lent(_word_bytes(word1))
    _, lent2 = _lent(_word_bytes(word2))
    answer = _library.thompson_same_element(*lent1, *lent2)
    if answer.refusal:
        raise Refused(answer.refusal % 256, answer.value, 2 if answer.refusal >= 256 else 1)
    return _VERDICTS[answer.value]


class Element:
    """An element of F, from a word or a text. It does not change, and can stand in sets and as a key.

    >>> g = Element('aabAAAAAbaaaB')
    >>> g
    Element('x0^2 x1 x6 x3^-1 x0^-2')
    >>> g == Element('x0^2 x1 x6 x3^-1 x0^-2'), g == Element('ab')
    (True, False)
    >>> g * g.inverse() == Element.identity()
    True
    >>> Element('ab') ** 3, Element('ab') ** -1
    (Element('x0^3 x1 x3 x5'), Element('x1^-1 x0^-1'))
    >>> g.record.hex()
    '01000c0000000200010001000600010200080000000200030001'
    >>> g.word(), g.text(), g.length()
    ('aabAAAAAbaaaB', 'x0^2 x1 x6 x3^-1 x0^-2', 11)

    Raises Refused as record does.
    """

    __slots__ = ('_record',)

    def __new__(cls, word):
        return cls._made(record(word))

    @classmethod
    def _made(cls, record):
        made = object.__new__(cls)
        object.__setattr__(made, '_record', record)
        return made

    @classmethod
    def of_record(cls, record):
        """The element of a record, which is checked. Raises Refused: 3, 4 or 5.

        >>> Element.of_record(bytes.fromhex('01000400010001020000'))
        Element('x1')
        """
        data = _record_bytes(record)
        check(data)
        return cls._made(data)

    @classmethod
    def identity(cls):
        """The identity.

        >>> Element.identity()
        Element('')
        """
        return cls('')

    @property
    def record(self):
        """The record, bytes."""
        return self._record

    def __setattr__(self, name, value):
        raise AttributeError('an element does not change')

    def __delattr__(self, name):
        raise AttributeError('an element does not change')

    def __reduce__(self):
        return type(self).of_record, (self._record,)

    def __eq__(self, other):
        return self._record == other._record if isinstance(other, Element) else NotImplemented

    def __hash__(self):
        return hash((Element, self._record))

    def __repr__(self):
        return 'Element(%r)' % self.text()

    def __mul__(self, other):
        """The product, by the two spellings one behind the other: the right factor acts first.

        Raises Refused: 8 where a factor's spelling has more than LIMIT letters, 1 where both together have more.

        >>> Element('x1') * Element('x0')
        Element('x0 x2')
        >>> Element('x0^4096') * Element('x0')
        Traceback (most recent call last):
            ...
        thompson.Refused: refused 1 at 4096: more letters than the limit
        """
        if not isinstance(other, Element):
            return NotImplemented
        return type(self)(self.word() + other.word())

    def __pow__(self, exponent):
        """The power, for any int, by products of smaller powers. Raises Refused as a product does.

        >>> Element('abA') ** 100
        Element('x0 x1^100 x0^-1')
        """
        try:
            exponent = operator.index(exponent)
        except TypeError:
            return NotImplemented
        if exponent == 0:
            return type(self).identity()
        power = base = self.inverse() if exponent < 0 else self
        for digit in bin(abs(exponent))[3:]:
            power = power * power
            if digit == '1':
                power = power * base
        return power

    def inverse(self):
        """The inverse: the record with the bodies of its two fields exchanged. It is never refused.

        >>> Element('x0^2 x3^-1').inverse()
        Element('x3 x0^-2')
        """
        end = _field_end(self._record, 0)
        first, second = self._record[1:end], self._record[end + 1:]
        return type(self).of_record(b'\x01' + second + b'\x02' + first)

    def word(self):
        """A word of the element, not always a shortest one. Raises Refused 8 where it is longer than LIMIT."""
        return word(self._record)

    def text(self):
        """The element in subscript notation."""
        return text(self._record)

    def length(self):
        """The least number of letters of a word of the element."""
        return length(self._record)

    def tree_pair(self):
        """The trees T- and T+ of the smallest tree pair, as nested tuples.

        >>> Element('').tree_pair()
        (None, None)
        """
        return tree_pair(self._record)


Entered = collections.namedtuple('Entered', 'number is_new holder live')
Entered.__doc__ = """A word that was entered: the number of the entry that holds its element or the inverse, whether
that entry is new, the holder that was given, and how many entries this holder has now."""

Entry = collections.namedtuple('Entry', 'number holder record')
Entry.__doc__ = """An entry of a register: its number, its holder, and the record that is stored."""


class Register:
    """A register of first filings, in a bytearray: an element and its inverse share one entry.

    Made fresh, of so many bytes, or from the bytes of a register, which are copied and checked. Raises Refused 12
    where they are no register, or too many. A holder, from 0 to 65535, has at most four entries.

    >>> filed = Register(46)
    >>> filed.enter('b', 7)
    Entered(number=1, is_new=True, holder=7, live=1)
    >>> filed.enter('a', 7)
    Entered(number=2, is_new=True, holder=7, live=2)
    >>> filed.enter('B', 9)
    Entered(number=1, is_new=False, holder=9, live=0)
    >>> for entry in filed.entries():
    ...     print(entry.number, entry.holder, entry.record.hex())
    1 7 01000002000400010001
    2 7 01000002000400000001
    >>> Register(filed.bytes()).live(7)
    2
    >>> filed.enter('ab', 7)
    Traceback (most recent call last):
        ...
    thompson.Refused: refused 14 at 0: an entry that does not fit the register
    """

    def __init__(self, size=REGISTER_MOST):
        if isinstance(size, (bytes, bytearray, memoryview)):
            self._buffer = bytearray(size)
        else:
            size = min(operator.index(size), REGISTER_MOST + 1)
            self._buffer = (bytearray(b'\x10\x00\x04') + bytearray(size))[:size]
        # The calls on a register come one after another: none may change what is lent to another.
        self._lock = threading.RLock()
        self.check()

    def _lent(self):
        size = len(self._buffer)
        return ctypes.byref(ctypes.c_uint8.from_buffer(self._buffer)) if size else None, size

    def check(self):
        """Nothing, where the register is well-formed, as it always is here; else Refused 12 is raised."""
        with self._lock:
            _value(_library.thompson_check_register(*self._lent()))

    def live(self, holder):
        """How many entries a holder has.

        >>> Register(26).live(7)
        0
        """
        holder = _holder(holder)
        with self._lock:
            return _value(_library.thompson_live_entries(*self._lent(), holder))

    def enter(self, word, holder):
        """Enters a word, in letters, for a holder, unless an entry has its element or the inverse already.

        Raises Refused: 1 or 2; 13 where the holder has four entries, 14 where the entry does not fit. Then the register
        is as it was.

        >>> Register(26).enter('a', 0)
        Entered(number=1, is_new=True, holder=0, live=1)
        """
        holder = _holder(holder)
        _, lent = _lent(_word_bytes(word))
        with self._lock:
            filing = _library.thompson_enter_word(*lent, holder, *self._lent())
            return Entered(_value(filing), not filing.present, holder, self.live(holder))

    def entries(self):
        """The entries, in the order of their numbers. Each has the smaller, in byte order, of the record of the word
        that was entered first and the record of its inverse."""
        data = self.bytes()
        entries = []
        at = REGISTER_FIRST
        while data[at:at + 1] == b'\x11':
            end = _field_end(data, at)
            entries.append(Entry(_number(data, at + 3, 4), _number(data, at + 7, 2), data[at + 9:end]))
            at = end
        return entries

    def bytes(self):
        """All bytes of the register, a copy.

        >>> Register(8).bytes().hex()
        '1000040000000000'
        """
        with self._lock:
            return bytes(self._buffer)

    __bytes__ = bytes


def _holder(given):
    holder = operator.index(given)
    if not 0 <= holder <= 65535:
        raise ValueError('a holder is a number from 0 to 65535, not %d' % holder)
    return holder
