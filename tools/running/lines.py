"""Request lines that are made from a seed over a known world, right and wrong, each in one of the many ways to write it. Used by
tools/running/compare_builds, which says what can be wrong with them."""
import json
import random
import re
from json.encoder import encode_basestring, encode_basestring_ascii

from worlds import BOOLEAN, DECIMAL, LONG, STRING

USER = ('Entity', 'Shop::User')
# Types of the world. ODD and LOOK look like uids and like calls.
POINT = ('Record', (('lat', DECIMAL, True), ('name', STRING, False)))
PLACE = ('Record', (('city', STRING, True), ('point', POINT, False), ('zip', LONG, False)))
LOOK = ('Record', (('id', STRING, True), ('type', STRING, True)))
FULL = ('Record', (
    ('count', LONG, True), ('name', STRING, True), ('place', PLACE, True), ('price', DECIMAL, True), ('sure', BOOLEAN, True),
    ('tags', ('Set', STRING), True), ('who', USER, True), ('', LONG, False), ('a "b"\\', STRING, False), ('flag', BOOLEAN, False),
    ('friends', ('Set', USER), False), ('größe', BOOLEAN, False), ('limit', LONG, False), ('look', LOOK, False), ('note', STRING, False),
    ('places', ('Set', PLACE), False), ('prices', ('Set', DECIMAL), False), ('sets', ('Set', ('Set', LONG)), False)))
SMALL = ('Record', (('flag', BOOLEAN, False), ('limit', LONG, False), ('note', STRING, False), ('who', USER, False)))
ODD = ('Record', (('__entity', LOOK, False), ('__extn', POINT, False), ('arg', DECIMAL, False), ('fn', STRING, False),
                  ('id', STRING, True), ('type', STRING, True)))
ONE = ('Record', (('n', LONG, True),))
NONE = ('Record', ())
# The types inside of contexts, each after those inside of it.
INNER = [USER, POINT, PLACE, LOOK, *[('Set', it) for it in (STRING, LONG, DECIMAL, USER, PLACE)], ('Set', ('Set', LONG))]
SHAPES = {
    'User': NONE, 'Doc': NONE, 'Shop::Team': NONE, 'Shop::Back::Robot': ONE, 'Shop::Back::permit': NONE,
    'Shop::User': ('Record', (('age', LONG, True), ('boss', USER, False))),
    'Shop::Order': ('Record', (('open', BOOLEAN, True), ('owner', USER, True), ('total', DECIMAL, True))),
    'Shop::Back::Item': NONE,
}
MEMBER_OF = {'User': ['Shop::Team'], 'Shop::User': ['Shop::Team'], 'Shop::Team': ['Shop::Team']}
# Each action with the types of principals and resources and the type of its context; the groups apply to nothing.
GROUPS = [('Action', 'all'), ('Shop::Action', 'group')]
APPROVE = (('Shop::Action', 'approve'), ['Shop::User'], ['Shop::Order'], FULL)
ACTIONS = [
    APPROVE,
    (('Action', 'view'), ['User', 'Shop::User'], ['Doc', 'Shop::Order', 'Shop::Back::permit'], NONE),
    (('Shop::Action', 'a "b" \\'), ['Shop::User', 'Shop::Back::Robot'], ['Shop::Order', 'Shop::Back::Item'], SMALL),
    (('Shop::Back::Action', ''), ['Shop::Back::Robot', 'Shop::User'], ['Shop::Back::Item', 'Shop::Order'], ODD),
    (('Shop::Back::Action', 'größe 😀'), ['Shop::User', 'User'], ['Doc', 'Shop::Order'], ONE),
]
OFTEN = ACTIONS + [APPROVE] * 3

PLAIN_IDS = ['ann', 'bob', 'eve', 'd1']
ODD_IDS = ['', ' ', 'x y', 'a"b', 'a\\b', "it's", 'a\nb', '\t', '\r', '\0', '\x1f', '\x7f', '*', '\\*', '//', 'a/b', 'Shop::User::"ann"',
           'größe', 'gro\u0308ße', '日本', '😀', '\u2028', '\ufeff', '\uffff', '\U0010ffff', '\ud7ff\ue000', 'if', '__entity', 'null', 'ANN',
           'k' * 300]
IDS = PLAIN_IDS * 8 + ODD_IDS
UNDECLARED = ['Ghost', 'Shop', 'Shop::Ghost', 'shop::User', 'Shop::Shop::User', 'Shop::User::Shop', 'User::Shop', 'Back::Item', 'Users',
              'Shop::Back', 'Shop::Back::Items', 'Shop::Back::Ite', 'Action', 'Shop::Action', 'principal', '__cedar', '_', 'T' * 500]
OTHER_ACTIONS = [('Action', 'fly'), ('Action', 'View'), ('Action', 'view '), ('Action', ''), ('Shop::Action', 'view'), ('Action',
                 'approve'), ('Shop::Back::Action', 'approve'), ('Shop::Action', 'a "b" '), ('Shop::Action', '\0'), ('Shop::User',
                 'approve'), ('Actions', 'view'), ('action', 'view'), ('Shop::Back::Action', 'größe'), ('User', 'ann'), *GROUPS]

TEXTS = ['', 'a', 'b', 'a b', 'größe', 'gro\u0308ße', '😀', '\0', '\n', '\t\b\f\r', '"', '\\', '\\u0041', 'a/b', '\x7f', '\u2028',
         '\U0010ffff', 'Shop::User', 'User::"ann"', 'decimal', '1.5', 'x' * 70]
LONGS = ['0', '1', '-1', '2', '7', '18', '20', '9223372036854775807', '-9223372036854775808', '9007199254740993', '-9007199254740993',
         '4611686018427387904', '4294967296', '10', '100']
WRONG_NUMBERS = [
    '-0', '0.0', '-0.0', '1.0', '1.5', '-1.5', '1e0', '1E5', '1e+2', '1e-2', '0e0', '0.1e1', '1e18', '9223372036854775808', '5e-324',
    '1e-400', '-9223372036854775809', '18446744073709551615', '18446744073709551616', '-18446744073709551616', '9223372036854775807.0',
    '1e308', '1.7976931348623157e308', '1.7976931348623159e308', '-1.7976931348623159e308', '1e309', '1e400', '-1E400', '1' * 100,
    '1' * 400, '0.' + '1' * 400, '1e99999999999999999999', '0e99999999999999999999', '1e-99999999999999999999', '-0e400']
DECIMALS = ['0.0', '-0.0', '1.5', '1.50', '01.5', '1.5000', '-2.25', '0.0001', '12345.6789', '922337203685477.5807',
            '-922337203685477.5808']
WRONG_DECIMALS = ['', '1', '1.', '.5', '-.5', '-', '.', '+1.5', '1.23456', '1.50000', '1e1', '1.5e0', ' 1.5', '1.5 ', '1,5', '1.5.0',
                  '1.-5', '--1.5', '922337203685477.5808', '-922337203685477.5809', '99999999999999999999.5', '\u0661.\u0665', '1.5\0',
                  'NaN', '1_0.5']
# Values of each kind, right and wrong.
VALUES = [
    'null', 'true', 'false', '0', '1', '-1', '""', '"a"', '"1.5"', '"true"', '"null"', '[]', '[1]', '["a"]', '[null]', '[[]]', '[[1],[]]',
    '[1,"a",true]', '{}', '{"a":1}', '{"":""}', '{"a":{"b":[{}]}}', '{"__entity":{}}', '{"__extn":{}}', '{"type":"Shop::User","id":"ann"}',
    '{"__entity":{"type":"Shop::User","id":"bob"}}', '{"fn":"decimal","arg":"1.5"}', '{"__extn":{"fn":"decimal","arg":"1.5"}}',
    '{"__extn":{"fn":"ip","arg":"::1"}}', '{"__expr":"1"}', '"Shop::User::\\"ann\\""', '"Action::\\"view\\""', '{"count":1,"count":2}',
    *WRONG_NUMBERS, *LONGS]
# What is not a value of JSON, also strings whose escapes or bytes are not.
NO_VALUES = [
    '01', '-01', '00', '-', '+1', '.5', '1.', '1.e1', '1e', '1e+', '-a', '0x10', '1_000', '--1', '1 2', '1,', 'NaN', 'Infinity',
    '-Infinity', '', 'nul', 'nulll', 'Null', 'True', 'TRUE', 'truefalse', 'fals', 'undefined', "'a'", 'a', '"\\ud83d"', '"\\ude00"',
    '"\\ud83d\\u0041"', '"\\ud83dx"', '"\\ude00\\ud83d"', '"\\ud83d\\ud83d\\ude00"', '"\\ud83d\\n"', '"\\ud83d\\ude0"', '"\\uDBFF"',
    '"\\uD800\\uDBFF"', '"\\x41"', '"\\u"', '"\\u12"', '"\\u12g4"', '"\\u 041"', '"\\u+041"', '"\\U0041"', '"\\u{41}"', '"\\a"', '"\\\'"',
    '"\\0"', '"\\', '"\x01"', '"\t"', '"\x00"', '"\x1f"', '"a', 'a"', '"a""b"', '[,]', '[1,]', '[,1]', '[1 2]', '[', ']', '[}', '{]', '{,}',
    '{"a"}', '{"a":}', '{"a":1,}', '{:1}', '{a:1}', '{1:1}', '{null:1}', '{"a" 1}', '{"a"::1}', '{"a":1 "b":2}', '{"a":1;"b":2}', '{"a",1}',
    '{"a":1,,"b":2}', '[1]]', '{}}', '/**/1', '1//', '#', '\u00a01', '\ufeff1', '1\x0c', '1\x0b']
# Keys, most of which are not those that are wanted.
KEYS = ['principal', 'action', 'resource', 'context', 'type', 'id', '__entity', 'fn', 'arg', '__extn', '__expr', 'Principal', 'PRINCIPAL',
        'principal ', ' principal', 'principals', 'principa', 'princıpal', 'Action', 'ressource', 'ctx', 'contexts', 'context\0', 'Type',
        'ty', 'ID', 'ids', '_entity', '__entity__', 'Fn', 'args', '', ' ', 'x', 'uid', 'count', 'Count', 'name', 'flag', 'größe',
        'gro\u0308ße', 'zip', '\0', '"', '\\', '😀', 'k' * 200]
UID_TOKENS = [
    ':', '::', ':::', '"', '\\', 'if', 'in', 'true', 'has', 'like', 'principal', '1', '1a', 'é', 'a-b', '.', ',', ';', '?principal', '"b"',
    "'b'", '""', '//', '/', '/* c */', '#', '\u200b', '\u180e', '\ufeff', '\0', 'Shop', 'User', '__cedar', '"\\q"', '"\\*"', '"\\x80"',
    '"\\x4"', '"\\xg0"', '"\\u{110000}"', '"\\u{d800}"', '"\\u{}"', '"\\u{0000041}"', '"\\u0041"', '"\\u{1_0}"', '"\\u{41"', '"\\u{ 41}"',
    '"\\U{41}"', '"a\\', '"a\\\\', '"\\b"', '"\\/"', '@', '[', '(', '==', '-', '9223372036854775808', '// x', '//\n', '// x\u2028',
    '\u00a0']
# Between the tokens of a uid.
BLANKS = [' ', '  ', '\t', '\n', '\r\n', '\x0b', '\x0c', '\u0085', '\u00a0', '\u1680', '\u2009', '\u2028', '\u3000', '// x\n', '//\r',
          ' // "y" ::\n ']
# Uids whose escapes are not those of JSON, or only just.
ESCAPED_UIDS = ['"Shop::User::\\"%s\\""' % it for it in (
    '\\ud83d', '\\ude00', '\\ud83d\\ude00', '\\ud83d\\\\u{de00}', '\\\\u{d83d}\\\\u{de00}', '\\u0000', '\\u005cn', '\\u0022', '\\\\u0041',
    '\\n', '\\\\n', '\\\\\\n', '\\u005c\\u0022', '\\x41', '\\*', '\\\\*', '\\/', 'a\tb', '\\u005cu{61}nn', '\\\\x61nn', '\\u0061nn')]
SPACES = ['', '', '', ' ', ' ', '\t', '\r', '  ', ' \t\r ']
CEDAR_ESCAPES = {'\n': '\\n', '\r': '\\r', '\t': '\\t', '\0': '\\0', '\\': '\\\\', '"': '\\"', "'": "\\'"}
JSON_ESCAPES = {'\n': '\\n', '\r': '\\r', '\t': '\\t', '\b': '\\b', '\f': '\\f', '\\': '\\\\', '"': '\\"', '/': '\\/'}

# What is written into a line, by bytes.
PIECES = [bytes([it]) for it in b'{}[]:,"\\ \t\r\0\x01\x0b\x0c\x1f\x7f\'/#0-+.eau'] + [
    b'\x80', b'\xbf', b'\xff', b'\xfe', b'\xc3', b'\xc0\x80', b'\xc1\xbf', b'\xe0\x80\x80', b'\xed\xa0\x80', b'\xed\xa0\xbd\xed\xb8\x80',
    b'\xf0\x9f\x98', b'\xf4\x90\x80\x80', b'\xf5\x80\x80\x80', b'\xef\xbb\xbf', b'\xc2\xa0', b'\xc2\x85', b'\xe2\x80\xa8', b'\xe2\x80\x8b',
    b'//', b'/**/', b'null', b'true', b'1e400', b'\\u', b'\\ud83d', b'\\ude00', b'\\u0000', b'\\"', b'\\x', b'""', b'{}', b'[]', b',,',
    b'"a":1', b',"a":1', b'"a":1,']
ENDS = [b',', b'}', b']', b'{', b'[', b'"', b':', b' ', b'\r', b'\t', b' \r', b'\r\r', b'\0', b'\xef\xbb\xbf', b'\xff', b'{}', b'null',
        b' x', b' 1', b'//', b'// x', b'\x0c', b'\x0b', b'\x1a', b'\xc2\xa0', b';', b'   ', b'\\', b',,', b'[]', b'""']
TOKEN = re.compile(rb'"(?:[^"\\]|\\.)*"|[{}\[\]:,]|[^\s{}\[\]:,"]+')
NO_OBJECTS = [it.encode() for it in VALUES + NO_VALUES] + [
    b'', b'', b'', b' ', b'\t', b'\r', b'\r\r', b'  \r', b'{', b'}', b'{}', b'{}', b' {} \r', b'{}{}', b'{},', b'{"principal"',
    b'{"principal":', b'\0', b'\xef\xbb\xbf', b'\xef\xbb\xbf{}', b'\xff\xfe{\0}\0', b'\xff', b'\xc0\x80', b'Shop::User::"ann"',
    b'{"principal":{}}', b'"', b'""', b'"\\']
# Sizes of lines, below and above those that buffers often have.
SIZES = [4095, 4096, 4097, 5000, 8191, 8192, 8193, 9000]
LARGE_SIZES = [32768, 65535, 65536, 65537, 70000, 131073]


def deep(height, how):
    """A value that is nested so deep."""
    if how == 0:
        return '[' * height + ']' * height
    if how == 1:
        return '{"a":' * height + '1' + '}' * height
    return '[' + '{"a":[' * (height // 2) + ']}' * (height // 2) + ']'


class Maker:
    """Makes request lines. What is slow to write is written for a run before its lines, and picked then."""

    def __init__(self, seed):
        self.next = random.Random(seed).random
        self.known_uids, self.others = {}, VALUES
        # The share of other values that are not JSON or nested deep. There is none in what is picked often for lines that are in order.
        self.share = 0
        self.values = {LONG: LONGS, BOOLEAN: ['true', 'false'], STRING: [self.string(self.pick(TEXTS)) for _ in range(300)]}
        self.values[DECIMAL] = [self.decimal(self.pick(DECIMALS)) for _ in range(100)]
        for type in INNER:
            self.values[type] = [self.made(type) for _ in range(60)]
        self.others = VALUES * 2 + [self.uid((self.pick([*SHAPES]), self.pick(IDS))) for _ in range(60)]
        self.others += [self.uid(it[0]) for it in ACTIONS for _ in range(12)] + [self.made(it[3]) for it in ACTIONS for _ in range(8)]
        self.share = 0.04
        self.wrong_values = {LONG: WRONG_NUMBERS, DECIMAL: [self.wrong_decimal() for _ in range(200)]}
        self.bent_uids = ESCAPED_UIDS + [self.bent_uid((self.pick([*SHAPES]), self.pick(PLAIN_IDS + ODD_IDS))) for _ in range(500)]
        self.bent_uids += [self.bent_uid(it[0]) for it in ACTIONS for _ in range(40)]

    # Choices

    def pick(self, them):
        return them[int(self.next() * len(them))]

    def other(self):
        """A value of any kind, seldom one that is not JSON or is nested deep."""
        if self.next() >= self.share:
            return self.pick(self.others)
        how = self.next()
        return self.pick(NO_VALUES) if how < 0.5 else deep(120 + int(self.next() * 11) if how < 0.98 else 3000, int(self.next() * 3))

    def bend(self, members):
        """Changes the members of an object: leaves one out, repeats it or adds one, or gives one another value or another key."""
        how, at, to = self.next(), int(self.next() * len(members)), int(self.next() * (len(members) + 1))
        if not members or how < 0.12:
            members.insert(to, (self.pick(KEYS), self.other()))
        elif how < 0.24:
            del members[at]
        elif how < 0.40:
            members[at] = (members[at][0], self.other())
        elif how < 0.50:
            members[at] = (self.pick(KEYS), members[at][1])
        elif how < 0.90:
            members.insert(to, (members[at][0], self.other()))
            if how < 0.60:
                self.bend(members)
        else:
            members.insert(to, members[at])

    # Texts

    def string(self, value):
        """The JSON of a string, in one of the ways to write it."""
        how = self.next()
        if how < 0.75:
            return encode_basestring(value) if how < 0.6 else encode_basestring_ascii(value)
        share = self.next()
        return '"%s"' % ''.join([self.escape(it) if self.next() < share else encode_basestring(it)[1:-1] for it in value])

    def escape(self, letter):
        if letter in JSON_ESCAPES and self.next() < 0.5:
            return JSON_ESCAPES[letter]
        digits = letter.encode('utf-16-be').hex()
        if self.next() < 0.5:
            digits = digits.upper()
        return ''.join('\\u' + digits[at:at + 4] for at in range(0, len(digits), 4))

    def cedar_escape(self, letter):
        if letter in CEDAR_ESCAPES and self.next() < 0.6:
            return CEDAR_ESCAPES[letter]
        forms = ['\\u{%x}', '\\u{%X}', '\\u{%06x}'] + (['\\x%02x', '\\x%02X'] if letter.isascii() else [])
        return self.pick(forms) % ord(letter)

    def object(self, members):
        """The JSON of an object, with or without spaces, seldom with a key that is escaped or not JSON."""
        how = self.next()
        keys = [encode_basestring(key) for key, _ in members]
        if members and how * 10 % 1 < 0.1:
            at = int(self.next() * len(members))
            keys[at] = self.string(members[at][0]) if self.next() >= self.share else self.pick(NO_VALUES)
        if how < 0.7:
            colon, comma = (':', ',') if how < 0.5 else (': ', ', ')
            return '{%s}' % comma.join([key + colon + it[1] for key, it in zip(keys, members)])
        spaces = [self.pick(SPACES) for _ in range(6)]
        colon, comma = '%s:%s' % (*spaces[:2],), '%s,%s' % (*spaces[2:4],)
        return '{%s%s%s}' % (spaces[4], comma.join([key + colon + it[1] for key, it in zip(keys, members)]), spaces[5])

    # Uids

    def tokens(self, uid):
        """The tokens of a uid, the string in one of the ways to write it."""
        share = 0 if self.next() < 0.6 else self.next()
        letters = [self.cedar_escape(it) if it in '"\\' or self.next() < share else it for it in uid[1]]
        return [*re.split('(::)', uid[0]), '::', '"%s"' % ''.join(letters)]

    def uid_string(self, tokens):
        """The JSON of a string of tokens, perhaps with blanks between them."""
        if self.next() < 0.75:
            return self.string(''.join(tokens))
        text = ''.join([(self.pick(BLANKS) if self.next() < 0.3 else '') + it for it in [*tokens, '']])
        return self.string(text + ('// x' if self.next() < 0.1 else ''))

    def uid_members(self, uid):
        members = [('type', self.string(uid[0])), ('id', self.string(uid[1]))]
        return members if self.next() < 0.5 else members[::-1]

    def uid_object(self, members):
        """An object of members, perhaps one of them repeated before it, and perhaps at `__entity`."""
        if self.next() < 0.1:
            members.insert(0, (self.pick(members)[0], self.pick(VALUES)))
        text = self.object(members)
        if self.next() < 0.6:
            return text
        around = [('__entity', text)]
        if self.next() < 0.1:
            around.insert(0, ('__entity', self.pick(VALUES)))
        return self.object(around)

    def uid(self, uid):
        """A uid in one of twelve ways, which are new in each run."""
        known = self.known_uids.setdefault(uid, [])
        if len(known) < 12:
            is_text = self.next() < 0.5
            known.append(self.uid_string(self.tokens(uid)) if is_text else self.uid_object(self.uid_members(uid)))
            return known[-1]
        return self.pick(known)

    def bent_uid(self, uid):
        """Nearly a uid, as a string or as an object."""
        how = self.next()
        if how < 0.5:
            return self.uid_string(self.bent_tokens(uid))
        if how < 0.6:
            # The type of an object is a name alone, and its id is not a text of the policy language.
            type = self.uid_string(self.bent_tokens(uid)[:-2] or [''])
            return self.uid_object([('type', type), ('id', self.uid_string(self.tokens(uid)[-1:]))])
        members = self.uid_members(uid)
        if how < 0.85 or not members:
            self.bend(members)
            return self.uid_object(members or [('type', 'null')])
        around = [('__entity', self.object(members))]
        self.bend(around)
        return self.object(around)

    def bent_tokens(self, uid):
        tokens, how = self.tokens(uid), self.next()
        at = int(self.next() * len(tokens))
        if how < 0.15:
            del tokens[at]
        elif how < 0.25:
            tokens.insert(at, tokens[at])
        elif how < 0.55:
            tokens[at] = self.pick(UID_TOKENS)
        elif how < 0.75:
            tokens.insert(at, self.pick(UID_TOKENS))
        elif how < 0.9:
            tokens.append(self.pick(UID_TOKENS))
        else:
            tokens[-1] = tokens[-1][:int(self.next() * len(tokens[-1]))] + self.pick(UID_TOKENS)
        return tokens

    # Values

    def decimal(self, text):
        """A decimal as a string or as a call."""
        if self.next() < 0.4:
            return self.string(text)
        members = [('fn', self.string('decimal')), ('arg', self.string(text))]
        call = self.object(members if self.next() < 0.5 else members[::-1])
        return call if self.next() < 0.5 else self.object([('__extn', call)])

    def wrong_decimal(self):
        """Nearly a decimal: another string, or a call that is bent."""
        if self.next() < 0.4:
            return self.decimal(self.pick(WRONG_DECIMALS))
        name = self.pick(['decimal', 'decimal', 'decimal', 'ip', 'Decimal', '', 'datetime'])
        members = [('fn', self.string(name)), ('arg', self.string(self.pick(DECIMALS)))]
        if name == 'decimal':
            self.bend(members)
        around = [('__extn', self.object(members))]
        if self.next() < 0.3:
            self.bend(around)
        return around[0][1] if around and self.next() < 0.5 else self.object(around)

    def members(self, type):
        """The members of a record of the type."""
        return [(key, self.value(of)) for key, of, is_required in type[1] if is_required or self.next() < 0.3]

    def value(self, type):
        """One of the values of the type that are written for a run."""
        return self.pick(self.values[type])

    def made(self, type):
        """The JSON of a value of the type."""
        if type[0] == 'Set':
            return '[%s]' % self.pick([',', ',', ', ', ' ,\t']).join([self.value(type[1]) for _ in range(int(self.next() * 4))])
        if type[0] == 'Entity':
            return self.uid_object(self.uid_members((type[1], self.pick(IDS))))
        members = self.members(type)
        if members and self.next() < 0.05:
            # The last value counts.
            members.insert(0, (self.pick(members)[0], self.other()))
        if self.next() < 0.3:
            members.sort(key=lambda it: self.next())
        return self.object(members)

    def wrong(self, type):
        """The JSON of nearly a value of the type."""
        kind, how = type[0], self.next()
        if kind == 'Record' and how < 0.92:
            members = self.members(type)
            self.bend_record(type, members)
            while self.next() < 0.3:
                self.bend_record(type, members)
            if self.next() < 0.5:
                members.sort(key=lambda it: self.next())
            return self.object(members)
        if kind == 'Set' and how < 0.7:
            members = [self.value(type[1]) for _ in range(int(self.next() * 3))]
            members.insert(int(self.next() * 3), self.wrong(type[1]))
            return '[%s]' % ','.join(members)
        if kind == 'Entity' and how < 0.8:
            return self.pick(self.bent_uids)
        return self.pick(self.wrong_values[type]) if type in self.wrong_values and how < 0.8 else self.other()

    def bend_record(self, type, members):
        """Gives an attribute a wrong value, or changes the members."""
        if not type[1] or self.next() < 0.45:
            return self.bend(members)
        key, of, _ = self.pick(type[1])
        members[:] = [it for it in members if it[0] != key]
        members.insert(int(self.next() * (len(members) + 1)), (key, self.wrong(of)))
        return None

    # Lines

    def part(self, key, types):
        """The principal or the resource of an action for these types."""
        how = self.next()
        if how < 0.93:
            return key, self.uid((self.pick(types), self.pick(IDS)))
        if how < 0.965:
            return key, self.pick(self.bent_uids)
        return key, self.uid((self.pick(UNDECLARED if how < 0.982 else [*SHAPES]), self.pick(IDS)))

    def request(self):
        """The members of a request."""
        action, principals, resources, context = self.pick(OFTEN)
        how = self.next()
        if how < 0.93:
            act = self.uid(action)
        else:
            act = self.pick(self.bent_uids) if how < 0.95 else self.uid(self.pick(OTHER_ACTIONS) if how < 0.98 else self.pick(ACTIONS)[0])
        members = [self.part('principal', principals), ('action', act), self.part('resource', resources)]
        how = self.next()
        if how < 0.2:
            members.append(('context', self.wrong(context)))
        elif how < 0.96 and context[1] or how < 0.6:
            members.append(('context', self.made(context)))
        while self.next() < 0.1:
            self.bend(members)
        if self.next() < 0.6:
            members.sort(key=lambda it: self.next())
        return members

    def line(self):
        how = self.next()
        if how < 0.03:
            return self.whole()
        if how < 0.0325:
            return self.long()
        text = self.object(self.request()).encode()
        if how < 0.12:
            return self.damage(text)
        return text if how < 0.9 else self.pick(SPACES).encode() + text + self.pick(SPACES).encode()

    def whole(self):
        """A line that is nearly never an object, or is around a request."""
        how = self.next()
        if how < 0.6:
            return self.pick(NO_OBJECTS)
        if how < 0.8:
            height = 120 + int(self.next() * 11) if how < 0.79 else 20000
            return deep(height, int(self.next() * 3)).encode()
        text = self.object(self.request())
        around = ['[%s]', '{"request":%s}', '"%s"', '{%s:1}', '{"x":[%s]}', '%s,']
        return self.pick([*[it % text for it in around], text * 2, text + ' ' + text, json.dumps(text)]).encode()

    def damage(self, text):
        """The line, cut, or with bytes or a token too many or too few."""
        how, at, piece = int(self.next() * 13), int(self.next() * (len(text) + 1)), self.pick(PIECES)
        if how < 3:
            return text[:at]
        if how < 7:
            # One byte less, the byte twice, another piece in its place, or a piece before it.
            return text[:at] + [b'', text[at:at + 1] * 2, piece, piece + text[at:at + 1]][how - 3] + text[at + 1:]
        if how < 11:
            end = self.pick(ENDS)
            return [text + end, end + text, text[:-1] + end + text[-1:], text[at:]][how - 7]
        tokens = [it.span() for it in TOKEN.finditer(text)]
        (start, end), (first, last) = sorted([self.pick(tokens), self.pick(tokens)])
        if how == 11 and end <= first:
            return text[:start] + text[first:last] + text[end:first] + text[start:end] + text[last:]
        return text[:start] + self.pick([b'', b'', text[first:last], text[start:end] * 2, self.other().encode()]) + text[end:]

    def long(self):
        """A line that is long in one way; about half of them have exactly a size of SIZES or LARGE_SIZES."""
        size, members = self.pick(SIZES if self.next() < 0.85 else LARGE_SIZES), self.request()
        how = self.pick(['id', 'object', 'comment', 'key', 'value', 'keys', 'set', 'context', 'digits', *['spaces'] * 8])
        many = 'ä' * (size // 2)
        long = {
            'id': ('principal', '"Shop::User::\\"%s\\""' % many), 'object': ('resource', '{"type":"Shop::Order","id":"%s"}' % many),
            'comment': ('principal', '"Shop::User :: // %s\\n \\"ann\\""' % many), 'key': (many, '1'), 'value': ('x', '"%s"' % many),
            'set': ('context', '{"tags":[%s]}' % ','.join(['"a"'] * (size // 4))), 'digits': ('context', '{"n":%s}' % ('1' * size)),
            'context': ('context', self.object(self.members(FULL) + [('note', '"%s"' % many)]))}
        if how == 'keys':
            members = members * (size // len(self.object(members)) + 1)
        elif how != 'spaces':
            members.insert(int(self.next() * (len(members) + 1)), long[how])
            members = members if how in ('key', 'value') else [it for it in members if it[0] != long[how][0]] + [long[how]]
        text = self.object(members).encode()
        wanted = b' ' * (size - len(text))
        if how == 'context' or not wanted:
            return text
        return self.pick([text[:1] + wanted + text[1:], wanted + text, text + wanted, text[:-1] + wanted + text[-1:]])

    def lines(self, count):
        """The bytes of so many lines; the last one has perhaps no LF."""
        made = [self.line() for _ in range(count)]
        end = b'\n' if made[-1] == b'' or self.next() < 0.5 else b''
        return b'\n'.join(made) + end
