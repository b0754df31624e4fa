"""The JSON that Cedar's own tools write, in the form that docs/SCHEMA.md and docs/DATA.md describe. Used by tools/from_cedar and
tools/integration_tests.

Each of schema_form, links_form, request_form and entities_form takes the JSON that read_json gave, and a Notes. It returns the
JSON in this project's form, and notes what it dropped and what has no form here. Where something has no form, the result is not
to be used. A number keeps the digits that it was written with, since `1.0` and `-0` are refused where `1` and `0` are not."""
import json
import re

# The names that Cedar itself declares, beside those of the schema.
BUILT_IN = {'Bool': {'type': 'Boolean'}, 'Long': {'type': 'Long'}, 'String': {'type': 'String'},
            'decimal': {'type': 'Extension', 'name': 'decimal'}}
# The extension types that each language has, with the functions that make their values.
EXTENSIONS = {3: {'decimal': 'decimal'}, 4: {'decimal': 'decimal', 'ipaddr': 'ip', 'datetime': 'datetime', 'duration': 'duration'}}
UID_TEXT = re.compile(r'\s*([A-Za-z_]\w*(?:\s*::\s*[A-Za-z_]\w*)*)\s*::\s*"((?:[^"\\]|\\.)*)"\s*$', re.A | re.S)
ESCAPE = re.compile(r'\\(?:([nrt0\\\'"])|x([0-7][0-9A-Fa-f])|u\{([0-9A-Fa-f]{1,6})\}|.)', re.S)
ESCAPED = {'n': '\n', 'r': '\r', 't': '\t', '0': '\0', '\\': '\\', "'": "'", '"': '"'}
TEMPLATE_KEYS = ('template_id', 'templateId')
LINK_KEYS = ('link_id', 'linkId', 'new_id', 'newId')
ARGUMENT_KEYS = ('args', 'values')


class NoJson(Exception):
    """Bytes that are not JSON as Cedar reads it."""


class Number(str):
    """A number of JSON, as it is written."""


class Notes:
    """What was dropped, and what has no form here: pairs of a path and words. What has a form depends on the language."""

    def __init__(self, language=3):
        self.dropped = []
        self.refused = []
        self.extensions = EXTENSIONS[language]

    def drop(self, path, words):
        self.dropped.append((shown(path), words))

    def refuse(self, path, words):
        self.refused.append((shown(path), words))

    def lines(self):
        """A line for each, those that were dropped first."""
        return ['%s: dropped: %s' % it for it in self.dropped] + ['%s: %s' % it for it in self.refused]


def shown(path):
    """A path of keys and places, as jq writes it: `.Shop.actions["view all"].memberOf[0]`."""
    text = ''
    for key in path:
        if isinstance(key, int):
            text += '[%d]' % key
        elif re.match(r'[A-Za-z_]\w*$', key, re.A):
            text += '.' + key
        else:
            text += '[%s]' % json.dumps(key, ensure_ascii=False)
    return text if text.startswith('.') else '.' + text


def once(pairs):
    """An object of these pairs, where no key is there twice."""
    found = dict(pairs)
    if len(found) != len(pairs):
        keys = [key for key, _ in pairs]
        raise NoJson('the key %s is there twice in one object' % json.dumps(next(it for it in keys if keys.count(it) > 1)))
    return found


def no_constant(word):
    raise NoJson('%s is not JSON' % word)


DECODER = json.JSONDecoder(object_pairs_hook=once, parse_int=Number, parse_float=Number, parse_constant=no_constant)


def read_values(text):
    """The JSON values that a text holds, one after the other."""
    values, at = [], 0
    while True:
        at = re.compile(r'[ \t\r\n]*').match(text, at).end()
        if at == len(text):
            return values
        try:
            value, at = DECODER.raw_decode(text, at)
        except json.JSONDecodeError as fault:
            raise NoJson('not JSON: %s' % fault) from fault
        except RecursionError as fault:
            raise NoJson('it nests too deep') from fault
        values.append(value)


def read_json(text):
    """The one JSON value that a text holds."""
    values = read_values(text)
    if len(values) != 1:
        raise NoJson('one JSON value is needed, and there are %d' % len(values))
    return values[0]


def read_text(path, notes):
    """The text of a file, without a byte order mark."""
    with open(path, 'rb') as file:
        content = file.read()
    try:
        text = content.decode('utf-8')
    except UnicodeDecodeError as fault:
        raise NoJson('not UTF-8: %s' % fault) from fault
    if text.startswith('\ufeff'):
        notes.drop((), 'a byte order mark')
    return text.removeprefix('\ufeff')


def written_text(text):
    """A string as JSON."""
    try:
        text.encode('utf-8')
    except UnicodeEncodeError:
        return json.dumps(text)
    return json.dumps(text, ensure_ascii=False)


def written(value, indent=None, depth=0):
    """A JSON value as a text: on one line, or with an indent."""
    if isinstance(value, Number):
        return str(value)
    if isinstance(value, str):
        return written_text(value)
    if not isinstance(value, (dict, list)):
        return json.dumps(value)
    colon, opened, parted, closed = ':', '', ',', ''
    if indent is not None:
        closed = '\n' + ' ' * indent * depth
        colon, opened = ': ', closed + ' ' * indent
        parted = ',' + opened
    if isinstance(value, list):
        parts = [written(it, indent, depth + 1) for it in value]
        return '[' + opened + parted.join(parts) + closed + ']' if parts else '[]'
    parts = [written_text(key) + colon + written(it, indent, depth + 1) for key, it in value.items()]
    return '{' + opened + parted.join(parts) + closed + '}' if parts else '{}'


def is_object(value, path, notes, what):
    """Whether a value is an object; where it is not, that is noted."""
    if not isinstance(value, dict):
        notes.refuse(path, '%s is an object' % what)
    return isinstance(value, dict)


def is_list(value, path, notes, what):
    """Whether a value is a list; where it is not, that is noted."""
    if not isinstance(value, list):
        notes.refuse(path, '%s is a list' % what)
    return isinstance(value, list)


def only(node, keys, path, notes):
    """Notes each key of an object that is not among the keys."""
    for key in node:
        if key not in keys:
            notes.refuse(path + (key,), 'this key is not known here')


def unescaped(text):
    """What a string literal of a Cedar text denotes, or none where an escape of it is not Cedar's."""
    wrong = []

    def one(found):
        if found[1]:
            return ESCAPED[found[1]]
        code = int(found[2] or found[3] or '110000', 16)
        if code > 0x10ffff or 0xd800 <= code < 0xe000:
            wrong.append(found[0])
            return ''
        return chr(code)
    whole = ESCAPE.sub(one, text)
    return None if wrong else whole


def uid_of_text(text):
    """The uid object of a text, for example `User::"ann"`, or none where it is not a uid."""
    found = UID_TEXT.match(text)
    name = unescaped(found[2]) if found else None
    return None if name is None else {'type': re.sub(r'\s', '', found[1]), 'id': name}


def uid_form(node, path, notes):
    """A uid as an object."""
    if isinstance(node, dict) and set(node) == {'__entity'}:
        node = node['__entity']
    if isinstance(node, dict) and set(node) == {'__expr'} and isinstance(node['__expr'], str):
        node = node['__expr']
    if isinstance(node, str) and not isinstance(node, Number):
        found = uid_of_text(node)
        if found is None:
            notes.refuse(path, '%s is not the uid of an entity' % written_text(node))
        return found
    if not isinstance(node, dict) or set(node) != {'type', 'id'} or not all(is_text(it) for it in node.values()):
        notes.refuse(path, 'a uid is an object of type and id')
    return node


def is_text(value):
    return isinstance(value, str) and not isinstance(value, Number)


def value_form(node, path, notes):
    """A value of entities or of a context."""
    if isinstance(node, list):
        return [value_form(it, path + (at,), notes) for at, it in enumerate(node)]
    if node is None:
        notes.refuse(path, 'null is not a value')
    if not isinstance(node, dict):
        return node
    if set(node) == {'__entity'}:
        return {'__entity': uid_form(node, path, notes)}
    if set(node) == {'__extn'}:
        return extension_form(node, path, notes)
    if set(node) == {'__expr'}:
        found = uid_of_text(node['__expr']) if is_text(node['__expr']) else None
        if found is None:
            notes.refuse(path, 'an __expr is left out here, but for an entity')
        return {'__entity': found}
    return {key: value_form(it, path + (key,), notes) for key, it in node.items()}


def extension_form(node, path, notes):
    """A value that an extension function makes: one of the language has a form here."""
    call = node['__extn']
    function = call.get('fn') if isinstance(call, dict) else None
    if function not in notes.extensions.values():
        notes.refuse(path, 'the extension function %s is left out here' % (function if is_text(function) else written(function)))
    return node


def request_form(request, notes, path=()):
    """A request: `principal`, `action`, `resource`, and perhaps `context`."""
    if not is_object(request, path, notes, 'a request'):
        return request
    only(request, ('principal', 'action', 'resource', 'context'), path, notes)
    form = {}
    for key in ('principal', 'action', 'resource'):
        if request.get(key) is None:
            notes.refuse(path + (key,), 'a request without %s is left out here' % key)
        else:
            form[key] = uid_form(request[key], path + (key,), notes)
    if 'context' in request and is_object(request['context'], path + ('context',), notes, 'a context'):
        form['context'] = {key: value_form(it, path + ('context', key), notes) for key, it in request['context'].items()}
    return form


def entities_form(entities, notes):
    """A list of entities."""
    if not is_list(entities, (), notes, 'the whole'):
        return entities
    return [entity_form(it, (at,), notes) for at, it in enumerate(entities)]


def entity_form(entry, path, notes):
    """An entry of a list of entities."""
    if not is_object(entry, path, notes, 'an entity'):
        return entry
    only(entry, ('uid', 'attrs', 'parents', 'tags'), path, notes)
    form = {}
    if 'uid' not in entry:
        notes.refuse(path, 'the key uid is missing')
    else:
        form['uid'] = uid_form(entry['uid'], path + ('uid',), notes)
    if 'attrs' in entry and is_object(entry['attrs'], path + ('attrs',), notes, 'attrs'):
        form['attrs'] = {key: value_form(it, path + ('attrs', key), notes) for key, it in entry['attrs'].items()}
    if 'parents' in entry and is_list(entry['parents'], path + ('parents',), notes, 'parents'):
        form['parents'] = [uid_form(it, path + ('parents', at), notes) for at, it in enumerate(entry['parents'])]
    if entry.get('tags'):
        notes.refuse(path + ('tags',), 'entity tags are left out here')
    elif entry.get('tags') == {}:
        form['tags'] = {}
    return form


def links_form(links, notes):
    """A list of links, also out of a policy set in JSON."""
    path = ()
    if isinstance(links, dict) and 'templateLinks' in links:
        for key in links:
            if key != 'templateLinks' and links[key]:
                notes.drop((key,), 'policies in JSON; write them as a text, each template with its id as @id')
        links, path = links['templateLinks'], ('templateLinks',)
    elif isinstance(links, dict):
        links = [links]
    if not is_list(links, path, notes, 'the whole'):
        return links
    return [link_form(it, path + (at,), notes) for at, it in enumerate(links)]


def link_form(link, path, notes):
    """A link: the id of its template, its own id, and a uid for each slot."""
    if not is_object(link, path, notes, 'a link'):
        return link
    only(link, TEMPLATE_KEYS + LINK_KEYS + ARGUMENT_KEYS, path, notes)
    form = {}
    for keys in (TEMPLATE_KEYS, LINK_KEYS, ARGUMENT_KEYS):
        found = [it for it in keys if it in link]
        if len(found) != 1:
            notes.refuse(path, 'one of the keys %s is needed, and there are %d' % (', '.join(keys), len(found)))
        else:
            form[keys[0]] = link[found[0]]
            if keys != ARGUMENT_KEYS and not is_text(form[keys[0]]):
                notes.refuse(path + (found[0],), 'an id is a string')
    given = next((it for it in ARGUMENT_KEYS if it in link), None)
    if given and is_object(link[given], path + (given,), notes, given):
        form['args'] = {slot: uid_form(uid, path + (given, slot), notes) for slot, uid in link[given].items()}
        for slot in form['args']:
            if slot not in ('?principal', '?resource'):
                notes.refuse(path + (given, slot), 'a slot is ?principal or ?resource')
    return form


def schema_form(schema, notes):
    """A schema, with each name as an entity type, a common type or a built-in type."""
    if not is_object(schema, (), notes, 'a schema'):
        return schema
    return SchemaForm(schema, notes).form()


def full_names(name, space):
    """The names that a name may denote where it is written in a namespace: the own namespace comes before the empty one."""
    return [name] if '::' in name or not space else [space + '::' + name, name]


class SchemaForm:
    """A schema that is turned: what it declares, and the notes."""

    def __init__(self, schema, notes):
        self.schema, self.notes = schema, notes
        self.commons, self.entities = self.declared('commonTypes'), self.declared('entityTypes')

    def only(self, node, keys, path):
        """Notes each key of a part that is not among the keys; annotations are dropped."""
        if 'annotations' in node:
            self.notes.drop(path + ('annotations',), 'annotations')
        only(node, (*keys, 'annotations'), path, self.notes)

    def declared(self, section):
        """The full names that a section declares."""
        found = set()
        for space, body in self.schema.items():
            names = body.get(section) if isinstance(body, dict) else None
            found.update(full_names(name, space)[0] for name in (names if isinstance(names, dict) else ()))
        return found

    def form(self):
        """The whole schema."""
        form = {}
        for space, body in self.schema.items():
            if is_object(body, (space,), self.notes, 'a namespace'):
                form[space] = self.namespace(body, space)
        return form

    def namespace(self, body, space):
        """What a namespace declares."""
        parts = {'commonTypes': self.type_form, 'entityTypes': self.entity, 'actions': self.action}
        self.only(body, parts, (space,))
        form = {}
        for section in body:
            path = (space, section)
            if section in parts and is_object(body[section], path, self.notes, section):
                form[section] = {name: parts[section](it, space, path + (name,)) for name, it in body[section].items()}
        return form

    def entity(self, body, space, path):
        """An entity type."""
        if not is_object(body, path, self.notes, 'an entity type'):
            return body
        self.only(body, ('memberOfTypes', 'shape', 'tags', 'enum'), path)
        for key, words in (('tags', 'entity tags are left out here'), ('enum', 'enumerated entity types are left out here')):
            if body.get(key) is not None:
                self.notes.refuse(path + (key,), words)
        form = {key: body[key] for key in ('memberOfTypes',) if key in body}
        if 'shape' in body:
            form['shape'] = self.type_form(body['shape'], space, path + ('shape',))
        return form

    def action(self, body, space, path):
        """An action."""
        if not is_object(body, path, self.notes, 'an action'):
            return body
        self.only(body, ('memberOf', 'appliesTo', 'attributes'), path)
        if body.get('attributes'):
            self.notes.refuse(path + ('attributes',), 'attributes of an action are left out here')
        form = {}
        if body.get('memberOf') is not None and is_list(body['memberOf'], path + ('memberOf',), self.notes, 'memberOf'):
            form['memberOf'] = [self.member(it, path + ('memberOf', at)) for at, it in enumerate(body['memberOf'])]
        if body.get('appliesTo') is not None:
            form['appliesTo'] = self.applies_to(body['appliesTo'], space, path + ('appliesTo',))
        return form

    def member(self, group, path):
        """An action that another is a member of."""
        if not is_object(group, path, self.notes, 'a member'):
            return group
        only(group, ('id', 'type'), path, self.notes)
        return {key: group[key] for key in ('type', 'id') if group.get(key) is not None}

    def applies_to(self, body, space, path):
        """What an action applies to."""
        if not is_object(body, path, self.notes, 'appliesTo'):
            return body
        only(body, ('principalTypes', 'resourceTypes', 'context'), path, self.notes)
        form = {}
        for key, what in (('principalTypes', 'principals'), ('resourceTypes', 'resources')):
            if body.get(key) is None:
                self.notes.refuse(path + (key,), '%s that are not specified are left out here' % what)
            else:
                form[key] = body[key]
        if 'context' in body:
            form['context'] = self.type_form(body['context'], space, path + ('context',))
        return form

    def type_form(self, node, space, path, is_attribute=False):
        """A type; `required` is kept where it is the type of an attribute."""
        if not is_object(node, path, self.notes, 'a type'):
            return node
        kind = node.get('type') if is_text(node.get('type')) else None
        keys = {'Set': ('element',), 'Record': ('attributes', 'additionalAttributes'),
                'Entity': ('name',), 'Extension': ('name',), 'EntityOrCommon': ('name',)}.get(kind, ())
        self.only(node, ('type',) + keys + (('required',) if is_attribute else ()), path)
        if kind == 'EntityOrCommon':
            form = self.named(node.get('name'), space, path)
        elif kind == 'Record':
            form = self.record(node, space, path)
        elif kind == 'Set':
            form = {'type': 'Set', 'element': self.type_form(node.get('element'), space, path + ('element',))}
        elif kind == 'Extension':
            form = self.extension(node.get('name'), path)
        elif kind in ('Entity', 'Long', 'String', 'Boolean'):
            form = {key: node[key] for key in ('type', 'name') if key in node}
        else:
            form = self.common(kind, space, path)
        return {**form, 'required': node['required']} if is_attribute and 'required' in node else form

    def record(self, node, space, path):
        """A type of records."""
        if node.get('additionalAttributes'):
            self.notes.refuse(path + ('additionalAttributes',), 'open records are left out here')
        attributes, path = node.get('attributes', {}), path + ('attributes',)
        if not is_object(attributes, path, self.notes, 'attributes'):
            return node
        return {'type': 'Record', 'attributes': {key: self.type_form(it, space, path + (key,), is_attribute=True)
                                                 for key, it in attributes.items()}}

    def named(self, name, space, path):
        """A name that `EntityOrCommon` gives: in each namespace a common type comes before an entity type."""
        for full in full_names(name, space) if is_text(name) else ():
            if full in self.commons:
                return {'type': name}
            if full in self.entities:
                return {'type': 'Entity', 'name': name}
        return self.built_in(name, path)

    def common(self, name, space, path):
        """A name that is a common type or a built-in type."""
        if is_text(name) and any(it in self.commons for it in full_names(name, space)):
            return {'type': name}
        return self.built_in(name, path)

    def extension(self, name, path):
        """The extension type of a name: one of the language has a form here."""
        if is_text(name) and name in self.notes.extensions:
            return {'type': 'Extension', 'name': name}
        self.notes.refuse(path, 'the extension type %s is left out here' % (name if is_text(name) else written(name)))
        return {}

    def built_in(self, name, path):
        """The built-in type of a name, which may be written with `__cedar::`."""
        bare = name.removeprefix('__cedar::') if is_text(name) else None
        if bare in BUILT_IN:
            return BUILT_IN[bare]
        if bare in EXTENSIONS[4]:
            return self.extension(bare, path)
        if bare is not None and bare.split('::')[-1] == 'Action':
            self.notes.refuse(path, 'a type of actions (%s) is left out here' % bare)
        else:
            self.notes.refuse(path, 'the type %s is not declared' % written(name))
        return {}
