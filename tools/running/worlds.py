"""Worlds for tests that make what they give to the program: what a schema is made of, and a world that is made from a seed, with its
policies, links, entities and requests. Used by tools/running/fuzz and tools/running/compare_builds.

A type is a tuple: its word and, of sets, records and entities, what it is of. A record has each attribute with its type and whether it is
required."""
import random
import re
import subprocess

LONG, STRING, BOOLEAN = ('Long',), ('String',), ('Boolean',)
DECIMAL, IP, DATETIME, DURATION = ('decimal',), ('ipaddr',), ('datetime',), ('duration',)
NUMBERS = [0, 1, 2, 7, -1, 9223372036854775807, -9223372036854775808, 4611686018427387904]
TEXTS = ['', 'a', 'b c', 'a*b', 'ü', '\n', '"', '\\', '\0', '\U0001f600', 'x' * 40]
# Of each extension type, the function that makes its values, and texts of some.
EXTENSIONS = {
    DECIMAL: ('decimal', ['0.0', '1.5', '1.50', '-2.25', '922337203685477.5807', '-922337203685477.5808']),
    IP: ('ip', ['127.0.0.1', '127.1.0.0/16', '10.0.0.0/8', '10.1.2.3', '0.0.0.0/0', '::', '::1', '::/0', 'FF02::1', 'fe80::/10', '1:2:3:4:5:6:7:8']),
    DATETIME: ('datetime', ['1970-01-01', '1969-12-31T23:59:59.999Z', '2026-12-01T10:00:00Z', '2024-02-29T00:00:00.001+0130', '0000-01-01',
                            '9999-12-31T23:59:59.999-2359']),
    DURATION: ('duration', ['0ms', '1h', '-1d', '1d2h3m4s5ms', '9223372036854775807ms', '-9223372036854775808ms']),
}
KEYS = ['age', 'name', 'owner', 'tags', 'home', 'level', 'a b', 'if']
IDS = ['ann', 'bob', 'x y', '']
# What a policy text writes in one way in both languages, and in another way in Cedar 4, between characters that no text has.
TWO_WAYS = '\ue000%s\ue001%s\ue002'
EITHER = re.compile('\ue000([^\ue000-\ue002]*)\ue001([^\ue000-\ue002]*)\ue002')


def text_of(value):
    """A string of the policy language."""
    escapes = {'"': '\\"', '\\': '\\\\', '\n': '\\n', '\0': '\\0'}
    return '"%s"' % ''.join(escapes.get(it, it) for it in value)


def uid_text(uid):
    return '%s::%s' % (uid[0], text_of(uid[1]))


def is_word(key):
    return re.fullmatch(r'[A-Za-z_]\w*', key) and key not in ('if', 'in', 'is', 'has', 'like', 'then', 'else', 'true', 'false')


def is_plain_name(key):
    """Whether Cedar 4 reads the key without quotes."""
    return re.fullmatch(r'[A-Za-z_]\w*', key)


def type_json(type, inner=None, is_implied=lambda: False):
    """The JSON of a type. `inner` gives that of a type in it; `is_implied` says whether a required attribute is not said to be so."""
    inner = inner or type_json
    if type[0] == 'Set':
        return {'type': 'Set', 'element': inner(type[1])}
    if type[0] == 'Record':
        return {'type': 'Record', 'attributes': {
            key: {**inner(of), **({} if required and is_implied() else {'required': required})} for key, of, required in type[1]}}
    if type[0] == 'Entity':
        return {'type': 'Entity', 'name': type[1]}
    return {'type': 'Extension', 'name': type[0]} if type in EXTENSIONS else {'type': type[0]}


def schema_json(spaces, shapes, above, groups, actions, inner=type_json):
    """The JSON of a schema: of entity types with their shapes and what is above them, of groups of actions, and of actions, each with the
    types of principals and resources, the type of the context, and the groups that it is in."""
    made = {name: {'entityTypes': {}, 'actions': {}} for name in spaces}
    for name, shape in shapes.items():
        space, _, last = name.rpartition('::')
        made[space]['entityTypes'][last] = {'memberOfTypes': above.get(name, []), 'shape': inner(shape)}
    for type, id in groups:
        made[type.rpartition('::')[0]]['actions'][id] = {}
    for (type, id), principals, resources, context, members in actions:
        made[type.rpartition('::')[0]]['actions'][id] = {
            'memberOf': [{'id': id, 'type': type} for type, id in members],
            'appliesTo': {'principalTypes': principals, 'resourceTypes': resources, 'context': inner(context)}}
    return made


def run(program, folder, words, lines=b'', seconds=60):
    """The status, standard output and standard error of a run in a folder, whose standard input is these bytes."""
    try:
        done = subprocess.run([program, *words], cwd=folder, input=lines, capture_output=True, timeout=seconds, check=False)
    except subprocess.TimeoutExpired as it:
        return 1, it.stdout or b'', b'it takes over %d seconds' % seconds
    return done.returncode, done.stdout, done.stderr


class World:
    """A schema that is made from a seed in a language, 3 or 4, and the files that follow it."""

    def __init__(self, seed, language=3):
        self.random = random.Random(seed)
        self.language = language
        self.plain = [LONG, STRING, BOOLEAN, DECIMAL] + [IP, DATETIME, DURATION] * (language == 4)
        self.types = ['User', 'Doc', 'N::Team', 'N::Group'][:self.random.randint(2, 4)]
        # Each type may be a member of those after it, and the last also of itself.
        self.above = {name: [it for it in self.types[at + 1:] if self.chance(0.5)] for at, name in enumerate(self.types)}
        if self.chance(0.5):
            self.above[self.types[-1]].append(self.types[-1])
        self.common = {'T%d' % at: self.type(2) for at in range(self.random.randint(0, 2))}
        self.shapes = {name: self.record(3) for name in self.types}
        self.groups = [('Action', 'read'), ('N::Action', 'all')][:self.random.randint(0, 2)]
        self.environments = [(('Action' if self.chance(0.6) else 'N::Action', 'do %d' % at), self.pick(self.types),
                              self.pick(self.types), self.record(2)) for at in range(self.random.randint(1, 3))]
        self.guards = []

    def chance(self, share):
        return self.random.random() < share

    def pick(self, them):
        return self.random.choice(list(them))

    def some(self, most, make):
        """Up to so many of what a call makes."""
        return [make() for _ in range(self.random.randint(0, most))]

    # Types and the schema

    def type(self, height):
        """A type of at most this height."""
        kind = self.pick(['plain', 'plain', 'set', 'record', 'entity'] if height > 0 else ['plain', 'entity'])
        if kind == 'set':
            return 'Set', self.type(height - 1)
        if kind == 'record':
            return self.record(height)
        return ('Entity', self.pick(self.types)) if kind == 'entity' else self.pick(self.plain)

    def record(self, height):
        keys = self.random.sample(KEYS, self.random.randint(0, 3))
        return 'Record', tuple(sorted((key, self.type(height - 1), self.chance(0.6)) for key in keys))

    def type_json(self, type):
        names = [name for name, other in self.common.items() if other == type]
        if names and self.chance(0.5):
            return {'type': names[0]}
        return self.whole_type_json(type)

    def whole_type_json(self, type):
        return type_json(type, self.type_json, lambda: self.chance(0.5))

    def schema(self):
        common = {name: self.whole_type_json(type) for name, type in self.common.items()}
        actions = ((action, [principal], [resource], context, [it for it in self.groups if self.chance(0.7)])
                   for action, principal, resource, context in self.environments)
        made = schema_json(('', 'N'), self.shapes, self.above, self.groups, actions, self.type_json)
        made['']['commonTypes'] = common
        return made

    # Values and what is made of them

    def uid(self, type):
        return type, self.pick(IDS)

    def uid_json(self, uid):
        plain = {'type': uid[0], 'id': uid[1]}
        return {'__entity': plain} if self.chance(0.3) else plain

    def uid_or_text(self, uid):
        return uid_text(uid) if self.chance(0.5) else self.uid_json(uid)

    def value(self, type):
        """The JSON of a value of the type."""
        if type[0] == 'Set':
            return self.some(3, lambda: self.value(type[1]))
        if type[0] == 'Record':
            return {key: self.value(of) for key, of, required in type[1] if required or self.chance(0.5)}
        if type[0] == 'Entity':
            return self.uid_json(self.uid(type[1]))
        if type in EXTENSIONS:
            function, texts = EXTENSIONS[type]
            call = {'fn': function, 'arg': self.pick(texts)}
            return self.pick([call['arg'], call, {'__extn': call}])
        return self.pick({LONG: NUMBERS, STRING: TEXTS, BOOLEAN: [True, False]}[type])

    def entities(self):
        """Entities, none of which is above itself: each has its parents among those after it."""
        uids = [(name, id) for name in self.types for id in IDS if self.chance(0.6)]
        return [{'uid': self.uid_json(uid), 'attrs': self.value(self.shapes[uid[0]]),
                 'parents': [self.uid_json(it) for it in uids[at + 1:] if it[0] in self.above[uid[0]] and self.chance(0.4)]}
                for at, uid in enumerate(uids)]

    def request(self):
        action, principal, resource, context = self.pick(self.environments)
        request = {'principal': self.uid_or_text(self.uid(principal)), 'action': self.uid_or_text(action),
                   'resource': self.uid_or_text(self.uid(resource)), 'context': self.value(context)}
        if request['context'] == {} and self.chance(0.5):
            del request['context']
        return request

    # Policies

    def either(self, text, other):
        """A text that is read in both languages; in Cedar 4, the other one in its place, perhaps."""
        return TWO_WAYS % (text, other) if self.language == 4 else text

    def listed(self, items):
        """The items of a list, perhaps with a comma after the last one."""
        return ', '.join(items) + (self.either('', ',') if items else '')

    def key(self, key):
        """The key of a record, or an attribute after `has`, that is a string or a name."""
        return self.either(text_of(key), key) if is_plain_name(key) else text_of(key)

    def paths(self, height=3):
        """The expressions of an environment, each with its type and its guard."""
        _, principal, resource, context = self.environment
        found = [('principal', ('Entity', principal), ()), ('resource', ('Entity', resource), ()), ('context', context, ())]
        for text, type, guards in found:
            shape = self.shapes[type[1]] if type[0] == 'Entity' else type
            if shape[0] == 'Record' and text.count('.') + text.count('[') < height:
                for key, of, required in shape[1]:
                    word = key if is_word(key) else self.key(key)
                    further = text + ('.' + key if is_word(key) and self.chance(0.8) else self.index(key))
                    found.append((further, of, guards if required else (*guards, '%s has %s' % (text, word))))
        return found

    def index(self, key):
        """An access in brackets, or with a point where Cedar 4 reads one."""
        index = '[%s]' % text_of(key)
        return self.either(index, '.' + key) if is_plain_name(key) else index

    def expression(self, type, height):
        """An expression of the type, seldom of another one; what guards it is kept."""
        if self.chance(0.01):
            type = self.type(1)
        paths = [it for it in self.paths() if it[1] == type]
        if paths and self.chance(0.6):
            text, _, guards = self.pick(paths)
            self.guards += guards
            return text
        if height > 0 and self.chance(0.1):
            return '(if %s then %s else %s)' % (self.boolean(height - 1), *(self.expression(type, height - 1) for _ in 'ab'))
        if type == BOOLEAN:
            return self.boolean(height)
        if self.language == 4 and height > 0 and type in (LONG, DATETIME, DURATION) and self.chance(0.5):
            return self.called(type, height - 1)
        if type == LONG and height > 0 and self.chance(0.5):
            left, right = (self.expression(LONG, height - 1) for _ in 'ab')
            return self.pick(['(%s + %s)', '(%s - %s)', '(%s * %s)']) % (left, right)
        if type[0] == 'Set':
            return '[%s]' % self.listed([self.expression(type[1], height - 1) for _ in range(self.random.randint(1, 3))])
        if type[0] == 'Record':
            return '{%s}' % self.listed(['%s: %s' % (self.key(key), self.expression(of, height - 1)) for key, of, _ in type[1]])
        if type[0] == 'Entity':
            return uid_text(self.uid(type[1]))
        if type in EXTENSIONS:
            function, texts = EXTENSIONS[type]
            return '%s(%s)' % (function, self.listed(['"%s"' % self.pick(texts)]))
        return str(self.pick(NUMBERS)) if type == LONG else text_of(self.pick(TEXTS))

    def called(self, type, below):
        """A method that gives a Long, a datetime or a duration."""
        def of(type):
            return self.expression(type, below)

        if type == LONG:
            return '%s.%s()' % (of(DURATION), self.pick(['toMilliseconds', 'toSeconds', 'toMinutes', 'toHours', 'toDays']))
        if self.chance(0.5):
            return '%s.%s()' % (of(DATETIME), 'toDate' if type == DATETIME else 'toTime')
        method, argument = ('offset', DURATION) if type == DATETIME else ('durationSince', DATETIME)
        return '%s.%s(%s)' % (of(DATETIME), method, self.listed([of(argument)]))

    def boolean(self, height):
        """An expression of Booleans."""
        if height <= 0:
            return self.pick(['true', 'false', '(principal == resource)', '(action in %s)' % uid_text(self.environment[0])])
        below = height - 1

        def of(type):
            return self.expression(type, below)

        def operand(type):
            # A sign would apply to the member after it, and could be beside another sign.
            text = of(type)
            return '(%s)' % text if text.startswith('-') else text

        type, entity = self.type(1), ('Entity', self.pick(self.types))
        ordered = self.pick([DATETIME, DURATION]) if self.language == 4 else LONG
        return '(%s)' % self.pick([
            lambda: '%s.%s()' % (of(IP), self.pick(['isIpv4', 'isIpv6', 'isLoopback', 'isMulticast'])),
            lambda: '%s.isInRange(%s)' % (of(IP), self.listed([of(IP)])),
            lambda: '%s %s %s' % (of(ordered), self.pick(['<', '<=', '>', '>=']), of(ordered)),
        ] * (self.language == 4) + [
            lambda: ' && '.join([of(BOOLEAN), of(BOOLEAN), *self.some(2, lambda: of(BOOLEAN))]),
            lambda: ' || '.join([of(BOOLEAN), of(BOOLEAN), *self.some(2, lambda: of(BOOLEAN))]),
            lambda: '!' + operand(BOOLEAN),
            lambda: '%s %s %s' % (of(LONG), self.pick(['<', '<=', '>', '>=']), of(LONG)),
            lambda: '-%s < %s' % (of(LONG), of(LONG)),
            lambda: '%s %s %s' % (of(type), self.pick(['==', '!=']), of(type)),
            lambda: '%s has %s' % (of(entity), self.key(self.pick(KEYS))),
            lambda: '%s like "%s"' % (of(STRING), self.pick(['*', 'a*', 'a\\*b', '*b*c', ''])),
            lambda: '%s is %s' % (of(entity), self.pick(self.types)),
            lambda: '%s in %s' % (of(entity), of(('Entity', self.pick(self.types)))),
            lambda: '%s in %s' % (of(entity), of(('Set', entity))),
            lambda: '%s.contains(%s)' % (operand(('Set', type)), self.listed([of(type)])),
            lambda: '%s.%s(%s)' % (operand(('Set', type)), self.pick(['containsAll', 'containsAny']), of(('Set', type))),
            lambda: '%s.%s(%s)' % (operand(DECIMAL), self.pick(['lessThan', 'greaterThanOrEqual']), of(DECIMAL)),
            lambda: 'decimal(%s).lessThan(%s)' % (of(STRING) if self.chance(0.1) else '"0.5"', of(DECIMAL)),
        ])()

    def condition(self):
        """A condition after its guard."""
        self.guards = []
        body = self.boolean(self.random.randint(1, 3))
        guards = [it for at, it in enumerate(self.guards) if it not in self.guards[:at]]
        return ' %s { %s }' % (self.pick(['when', 'when', 'unless']) if not guards else 'when', ' && '.join([*guards, body]))

    def scope(self, variable, type, has_slot):
        """The part of a scope on the principal or the resource."""
        if has_slot:
            return '%s %s ?%s' % (variable, self.pick(['==', 'in']), variable)
        return self.pick(['%s is %s' % (variable, type)] * 6 + ['%s == %s' % (variable, uid_text(self.uid(type))), '%s in %s' % (
            variable, uid_text(self.uid(self.pick(self.types)))), variable])

    def policy(self, at):
        """A statement, and the slots of its template, if it is one."""
        self.environment = self.pick(self.environments)
        action, principal, resource, _ = self.environment
        slots = [it for it in ('principal', 'resource') if self.chance(0.1)]
        actions = ['action == %s' % uid_text(action)] * 6 + ['action in [%s]' % self.listed([uid_text(action)]), 'action']
        text = '@id("p%d")\n' % at if slots or self.chance(0.5) else ''
        if self.language == 4:
            text += ''.join('@%s%s ' % (key, self.either('("")', '')) for key in ('note', 'if') if self.chance(0.2))
        text += '%s(%s)' % (self.pick(['permit', 'permit', 'forbid']), self.listed([
            self.scope('principal', principal, 'principal' in slots), self.pick(actions), self.scope('resource', resource, 'resource' in slots)]))
        return text + ''.join(self.some(2, self.condition)) + ';', ('p%d' % at, slots)

    def policies(self):
        """A policy text, the same with the spellings that both languages read, and the links of its templates."""
        made = [self.policy(at) for at in range(self.random.randint(1, 6))]
        templates = [template for _, template in made if template[1]]
        links = [{'template_id': id, 'link_id': 'l%d' % at, 'args': {'?' + it: self.uid_or_text(self.uid(self.pick(self.types)))
                                                                    for it in slots}}
                 for at, (id, slots) in enumerate(self.random.choices(templates, k=3) if templates else [])]
        text = '\n'.join(text for text, _ in made)
        return EITHER.sub(lambda it: it[self.random.randint(1, 2)], text), EITHER.sub(r'\1', text), links
