"""The binding over the examples of this repository: each answer is that of answers.jsonl."""
import concurrent.futures
import copy
import json
import multiprocessing
import os
import pickle
import re
import sys
import threading
import time
import unittest

HERE = os.path.dirname(os.path.abspath(__file__))
sys.path.insert(0, os.path.dirname(HERE))
import bobbinjade  # noqa: E402

FOLDER = os.path.join(HERE, '..', '..', '..', 'examples')
FILES = ('schema.json', 'policies.cedar', 'entities.json', 'links.json')
SECONDS = float(os.environ.get('BOBBINJADE_SECONDS', 1))


def content(*names):
    path = os.path.join(FOLDER, *names)
    if not os.path.exists(path):
        return None
    with open(path, 'rb') as file:
        return file.read()


def files_of(name):
    return [content(name, file) for file in FILES]


def names():
    # An example with options is of the program alone.
    return sorted(it for it in os.listdir(FOLDER) if content(it, 'answers.jsonl') and not content(it, 'options'))


def cut(line):
    """The parts of the request that a line of the examples denotes, or None where it does not read as one."""
    try:
        request = json.loads(line)
        parts = [request[key] for key in ('principal', 'action', 'resource')]
    except (ValueError, KeyError, TypeError):
        return None
    if set(request) - {'principal', 'action', 'resource', 'context'}:
        return None
    pairs = []
    for uid in parts:
        found = re.fullmatch(r'([\w:]+)::"([^"\\]*)"', uid) if isinstance(uid, str) else None
        if not found and not (isinstance(uid, dict) and set(uid) == {'type', 'id'}):
            return None
        pairs.append(found.groups() if found else (uid['type'], uid['id']))
    return parts, pairs, request.get('context')


def written(response):
    """The answer line of a response."""
    erring = [{'error': it.error, 'policy': it.policy} for it in response.erring]
    line = {'decision': response.decision, 'determining': response.determining, 'erring': erring}
    return json.dumps(line, separators=(',', ':'), ensure_ascii=False)


class Examples(unittest.TestCase):
    def test_lines_at_once_and_one_by_one(self):
        for name in names():
            requests, answers = content(name, 'requests.jsonl'), content(name, 'answers.jsonl').decode()
            with bobbinjade.Engine(*files_of(name)) as engine:
                self.assertEqual(engine.answer(requests), answers)
                self.assertEqual(engine.answer(requests.decode()), answers)
                self.assertEqual(engine.answer_with_entities(requests), answers)
                for line, wanted in zip(requests.splitlines(), answers.splitlines()):
                    self.assertEqual(engine.answer_line(line), wanted)

    def test_swapped_entities(self):
        for name in names():
            schema, policies, entities, links = files_of(name)
            engine = bobbinjade.Engine(schema, policies, '[]', links)
            engine.publish_entities(entities)
            self.assertEqual(engine.answer(content(name, 'requests.jsonl')), content(name, 'answers.jsonl').decode())

    def test_words_of_requests(self):
        engine = bobbinjade.Engine(*files_of('notes'))
        with self.assertRaises(bobbinjade.RequestRefused) as raised:
            engine.decide('User::"ann"', 'Action::"fly"', 'Notebook::"plans"')
        wanted = 'error[510]: an action is not declared\n --> request\n   = action: Action::"fly" is not declared\n'
        self.assertEqual((raised.exception.number, raised.exception.words, str(raised.exception)), (510, wanted, wanted.rstrip()))
        line = {'principal': 'User::"ann"', 'action': 'Action::"write"', 'resource': 'Notebook::"plans"'}
        self.assertEqual(engine.explain_line(json.dumps(line)), '')
        line['entities'] = [{'uid': {'type': 'Ghost', 'id': 'g'}}]
        self.assertTrue(engine.explain_line(json.dumps(line)).startswith('error[502]: '))
        self.assertTrue(engine.explain_line(json.dumps(line), True).startswith('error[503]: '))
        engine.close()
        self.assertRaises(bobbinjade.Closed, engine.explain_line, json.dumps(line))

    def test_lines_that_bring_entities(self):
        having = [it for it in names() if content(it, 'requests_with_entities.jsonl')]
        self.assertTrue(having)
        for name in having:
            schema, policies, _, links = files_of(name)
            engine = bobbinjade.Engine(schema, policies, '[]', links)
            wanted = content(name, 'answers_with_entities.jsonl').decode()
            self.assertEqual(engine.answer_with_entities(content(name, 'requests_with_entities.jsonl')), wanted)

    def test_by_parts(self):
        count = 0
        for name in names():
            engine = bobbinjade.Engine(*files_of(name))
            for line, wanted in zip(content(name, 'requests.jsonl').decode().splitlines(), content(name, 'answers.jsonl').decode().splitlines()):
                parts = cut(line)
                if parts:
                    count += 1
                    uids, pairs, context = parts
                    texts = [json.dumps(context)] if context is not None else [None]
                    for given in [context, *texts]:
                        self.check(engine, pairs, given, wanted)
                        if all(isinstance(it, str) for it in uids):
                            self.check(engine, uids, given, wanted)
        self.assertGreater(count, 60)

    def check(self, engine, uids, context, wanted):
        try:
            response = engine.authorize(*uids, context)
        except bobbinjade.RequestRefused as refused:
            self.assertEqual('{"refused":%d}' % refused.number, wanted)
            with self.assertRaises(bobbinjade.RequestRefused) as raised:
                engine.decide(*uids, context)
            self.assertEqual(raised.exception.number, refused.number)
            self.assertEqual(raised.exception.words, refused.words)
            self.assertTrue(refused.words.startswith('error[%d]: ' % refused.number), refused.words)
            return
        self.assertEqual(written(response), wanted)
        self.assertEqual(response.text, wanted)
        self.assertEqual(bool(response), wanted.startswith('{"decision":"allow"'))
        self.assertIs(engine.decide(*uids, context), response.allowed)

    def test_reports(self):
        for name in names():
            schema, policies, entities, links = files_of(name)
            report = bobbinjade.validate(schema, policies, links)
            self.assertEqual(report, (True, content(name, 'report.jsonl').decode()))
            self.assertEqual(bobbinjade.explain(schema, policies, entities, links), '')


class Languages(unittest.TestCase):
    """Files of the language of Cedar 4, which are refused in the default language."""

    def setUp(self):
        here = os.path.join(HERE, '..', '..', '..', 'tests', 'bindings', 'language_4')
        self.files = [content(here, file) for file in FILES]
        self.requests, self.answers, self.changes, self.broken = [
            content(here, file) for file in ('requests.jsonl', 'answers.jsonl', 'changes.json', 'refused_changes.json')]

    def test_language_4(self):
        schema, policies, entities, _ = self.files
        engine = bobbinjade.Engine(schema, policies, entities, language=4)
        self.assertEqual(engine.answer(self.requests), self.answers.decode())
        self.assertEqual(bobbinjade.validate(schema, policies, language=4), (True, '{"faults":0,"warnings":0}\n'))
        self.assertEqual(''.join(bobbinjade.validate_parts(schema, policies, language=4)), '{"faults":0,"warnings":0}\n')
        self.assertEqual(bobbinjade.explain(schema, policies, entities, language=4), '')
        engine.publish(schema, policies, '[]', language=4)
        engine.publish_entities(entities)
        self.assertEqual(engine.answer(self.requests), self.answers.decode())
        with self.assertRaises(bobbinjade.Refused) as raised:
            engine.publish_changes(self.broken)
        self.assertIn('upsert entry 0 (from 0), User::"bob"', raised.exception.words)
        engine.publish_changes(self.changes)
        self.assertTrue(engine.decide('User::"bob"', 'Action::"read"', 'Doc::"d"'))

    def test_the_example_in_language_4(self):
        with bobbinjade.Engine(*files_of('shares'), language=4) as engine:
            self.assertEqual(engine.answer(content('shares', 'requests.jsonl')), content('shares', 'answers.jsonl').decode())

    def test_the_default_language(self):
        schema, policies, entities, _ = self.files
        with bobbinjade.Engine(schema, policies, entities, language=4) as engine:
            for call in (lambda: bobbinjade.Engine(schema, policies, entities), lambda: engine.publish(schema, policies, entities, language=3),
                         lambda: bobbinjade.validate(schema, policies), lambda: next(bobbinjade.validate_parts(schema, policies))):
                with self.assertRaises(bobbinjade.Refused) as raised:
                    call()
                self.assertEqual((raised.exception.file, raised.exception.number), ('schema', 303))
            self.assertEqual(engine.answer(self.requests), self.answers.decode())
        self.assertNotEqual(bobbinjade.explain(schema, policies, entities), '')

    def test_other_languages(self):
        schema, policies, entities, _ = files_of('notes')
        engine = bobbinjade.Engine(schema, policies, entities, language=3)
        for language in (0, 2, 5, -4, '4', None):
            for call in (lambda: bobbinjade.Engine(schema, policies, entities, language=language),
                         lambda: engine.publish(schema, policies, entities, language=language),
                         lambda: bobbinjade.validate(schema, policies, language=language),
                         lambda: bobbinjade.validate_parts(schema, policies, language=language),
                         lambda: bobbinjade.explain(schema, policies, language=language)):
                self.assertRaisesRegex(ValueError, 'the language is 3 or 4', call)
        self.assertEqual(engine.answer(content('notes', 'requests.jsonl')), content('notes', 'answers.jsonl').decode())


class Refusals(unittest.TestCase):
    def setUp(self):
        self.files = files_of('notes')

    def test_words(self):
        schema, _, entities, _ = self.files
        broken = content('notes', 'broken_policies.cedar')
        engine = bobbinjade.Engine(*self.files)
        for call in (lambda: bobbinjade.Engine(schema, broken, entities), lambda: engine.publish(schema, broken, entities),
                     lambda: bobbinjade.validate(schema, broken)):
            with self.assertRaises(bobbinjade.Refused) as raised:
                call()
            refused = raised.exception
            self.assertEqual((refused.file, refused.number, refused.offset, refused.line), ('policies', 201, 128, 4))
            self.assertTrue(refused.words.startswith('error[201]: the policy text has a syntax error\n'), refused.words)
        self.assertEqual(engine.answer(content('notes', 'requests.jsonl')), content('notes', 'answers.jsonl').decode())

    def test_each_file(self):
        schema, policies, entities, _ = self.files
        engine = bobbinjade.Engine(*self.files)
        for files, wanted in (((b'{', policies, entities), ('schema', 301)), ((schema, policies, entities, b'{}'), ('links', 502)),
                              ((schema, policies, b'{}'), ('entities', 502))):
            with self.assertRaises(bobbinjade.Refused) as raised:
                engine.publish(*files)
            self.assertEqual((raised.exception.file, raised.exception.number), wanted)
            self.assertTrue(raised.exception.words.startswith('error[%d]: ' % wanted[1]), raised.exception.words)

    def test_entities(self):
        schema, policies, entities, _ = files_of('photos')
        broken = content('photos', 'broken_entities.json')
        engine = bobbinjade.Engine(schema, policies, '[]')
        raised = []
        for call in (lambda: engine.publish_entities(broken), lambda: engine.publish(schema, policies, broken)):
            with self.assertRaises(bobbinjade.Refused) as refused:
                call()
            raised.append(vars(refused.exception))
        words = raised[0].pop('words')
        self.assertTrue(words.startswith('error[506]: an attribute is not declared\n'), words)
        self.assertEqual(raised[0], {'file': 'entities', 'number': 506, 'offset': None, 'line': 3})
        self.assertEqual(raised[1], {**raised[0], 'words': words})
        with self.assertRaises(bobbinjade.Refused) as refused:
            engine.publish_entities('')
        self.assertEqual((refused.exception.file, refused.exception.number), ('entities', 501))
        # The beach is not stored yet, and `private` reads an attribute of it.
        asked = 'User::"ann"', 'Action::"view"', 'Photo::"beach"'
        self.assertEqual(engine.authorize(*asked).text,
                         '{"decision":"deny","determining":[],"erring":[{"error":"missing_entity","policy":"private"}]}')
        engine.publish_entities(entities)
        self.assertEqual(engine.authorize(*asked).determining, ['shared-with-friends'])
        # Ann leaves her group.
        engine.publish_entities(entities.decode().replace(', "parents": [{ "type": "UserGroup", "id": "jane_friends" }]', ''))
        self.assertEqual(engine.authorize(*asked).text, '{"decision":"deny","determining":[],"erring":[]}')
        engine.close()
        self.assertRaises(bobbinjade.Closed, engine.publish_entities, entities)

    def test_faults(self):
        schema, _, entities, _ = self.files
        policies = 'permit(principal, action, resource) when { principal.age > 1 };' * 200
        with self.assertRaises(bobbinjade.Faults) as raised:
            bobbinjade.Engine(schema, policies, entities)
        self.assertTrue(raised.exception.report.endswith('{"faults":600,"warnings":0}\n'))
        self.assertTrue(raised.exception.words.startswith('error[603]: '), raised.exception.words)
        self.assertEqual(bobbinjade.validate(schema, policies), (False, raised.exception.report))

    def test_requests(self):
        engine = bobbinjade.Engine(*self.files)
        ann, write, plans = 'User::"ann"', 'Action::"write"', 'Notebook::"plans"'
        for request, number in (((('no name', 'ann'), write, plans), 502), ((ann, write, plans, '['), 501), ((ann, write, plans, {'n': 1}), 506),
                                ((ann, 'Action::"fly"', plans), 510), (('ann', write, plans), 502), (('User::"a\\"b"', write, plans), 502),
                                ((('User',), write, plans), 502), ((('User', 1), write, plans), 502), ((('User', '\ud800'), write, plans), 502)):
            with self.assertRaises(bobbinjade.RequestRefused) as raised:
                engine.authorize(*request)
            self.assertEqual(raised.exception.number, number, request)
        self.assertFalse(engine.authorize(('User', 'a"b\\'), write, plans))

    def test_room(self):
        schema, _, entities, _ = self.files
        policies = ''.join('@id("a long name of a policy, number %d") permit(principal, action, resource);' % at for at in range(400))
        engine = bobbinjade.Engine(schema, policies, entities)
        response = engine.authorize('User::"ann"', 'Action::"write"', 'Notebook::"plans"')
        self.assertEqual(len(response.determining), 400)
        self.assertEqual(engine.answer_line(content('notes', 'requests.jsonl').splitlines()[0]), response.text)

    def test_closing(self):
        engine = bobbinjade.Engine(*self.files)
        self.assertTrue(engine.decide('User::"ann"', 'Action::"write"', 'Notebook::"plans"'))
        engine.close()
        engine.close()
        for call in (lambda: engine.decide('User::"ann"', 'Action::"write"', 'Notebook::"plans"'), lambda: engine.answer_line('{}'),
                     lambda: engine.answer('{}'), lambda: engine.answer_with_entities('{}'),
                     lambda: engine.authorize('User::"ann"', 'Action::"write"', 'Notebook::"plans"'), lambda: engine.publish(*self.files)):
            self.assertRaises(bobbinjade.Closed, call)

    def test_copies_of_engines(self):
        """An engine is not copied, since two would share handles."""
        engine = bobbinjade.Engine(*self.files)
        for call in (copy.copy, copy.deepcopy, pickle.dumps, lambda it: pickle.dumps(it, 0), lambda it: copy.copy([it, copy.copy(it)])):
            with self.assertRaisesRegex(TypeError, 'an Engine cannot be copied or pickled'):
                call(engine)
        self.assertTrue(engine.decide('User::"ann"', 'Action::"write"', 'Notebook::"plans"'))

    def raised(self):
        """An error of each kind."""
        schema, policies, entities, _ = self.files
        engine, closed = bobbinjade.Engine(*self.files), bobbinjade.Engine(*self.files)
        closed.close()
        request = 'User::"ann"', 'Action::"write"', 'Notebook::"plans"'
        fault = 'permit(principal, action, resource) when { principal.age > 1 };'
        for call in (lambda: engine.publish(schema, content('notes', 'broken_policies.cedar'), entities), lambda: engine.publish_entities('{}'),
                     lambda: engine.publish(schema, fault, entities), lambda: engine.decide(*request, '['),
                     lambda: engine.decide('ann', *request[1:]), lambda: closed.decide(*request)):
            with self.assertRaises(bobbinjade.Error) as raised:
                call()
            yield raised.exception
        yield bobbinjade.OutOfMemory('out of memory')
        yield bobbinjade.Error('the library does not fit this package: status 4')

    def test_copies_of_errors(self):
        """What an error says is the same after pickle, as where a pool of processes passes it on, and after copy."""
        kinds = set()
        for error in self.raised():
            kinds.add(type(error))
            error.seen = 'a note'
            ways = [copy.copy, copy.deepcopy] + [lambda it, way=way: pickle.loads(pickle.dumps(it, way)) for way in range(pickle.HIGHEST_PROTOCOL + 1)]
            for way in ways:
                other = way(error)
                self.assertEqual((type(other), str(other), other.args, vars(other)), (type(error), str(error), error.args, vars(error)))
        self.assertEqual(kinds, {bobbinjade.Refused, bobbinjade.Faults, bobbinjade.RequestRefused, bobbinjade.Closed, bobbinjade.OutOfMemory,
                                 bobbinjade.Error})

    def test_a_pool_of_processes(self):
        """A refused file in another process is raised in this one."""
        with concurrent.futures.ProcessPoolExecutor(1, multiprocessing.get_context('spawn')) as pool:
            schema, _, entities, _ = self.files
            with self.assertRaises(bobbinjade.Refused) as raised:
                pool.submit(bobbinjade.validate, schema, content('notes', 'broken_policies.cedar')).result(60)
        self.assertEqual((raised.exception.file, raised.exception.number, raised.exception.line), ('policies', 201, 4))

    def test_version(self):
        self.assertRegex(bobbinjade.version(), r'^\d+\.\d+\.\d+$')


class Changes(unittest.TestCase):
    """Staff may view. Bob is in the team, and the team in the staff. Ann is not stored."""
    SCHEMA = json.dumps({'': {
        'entityTypes': {'Group': {'memberOfTypes': ['Group']},
                        'User': {'memberOfTypes': ['Group'], 'shape': {'type': 'Record', 'attributes': {'age': {'type': 'Long'}}}}},
        'actions': {'view': {'appliesTo': {'principalTypes': ['User'], 'resourceTypes': ['Group']}}}}})
    POLICIES = '@id("staff") permit(principal in Group::"staff", action, resource);'

    @staticmethod
    def uid(type_name, name):
        return {'type': type_name, 'id': name}

    def entry(self, type_name, name, parents=(), **attributes):
        return {'uid': self.uid(type_name, name), 'attrs': attributes, 'parents': [self.uid('Group', it) for it in parents]}

    def setUp(self):
        entities = [self.entry('Group', 'staff'), self.entry('Group', 'team', ['staff']), self.entry('User', 'bob', ['team'], age=1)]
        self.ann = self.entry('User', 'ann', ['team'], age=30)
        self.engine = bobbinjade.Engine(self.SCHEMA, self.POLICIES, json.dumps(entities))

    def who(self, engine):
        """Who may view: of ann and bob."""
        return [name for name in ('ann', 'bob') if engine.decide(('User', name), 'Action::"view"', 'Group::"staff"')]

    def test_changes(self):
        engine = self.engine
        before = engine.with_changes({})
        self.assertEqual(self.who(engine), ['bob'])
        engine.publish_changes({'upsert': [self.ann]})
        self.assertEqual((self.who(engine), self.who(before)), (['ann', 'bob'], ['bob']))
        engine.publish_changes(json.dumps({'remove': [self.uid('User', 'ann'), self.uid('User', 'nobody')]}))
        self.assertEqual(self.who(engine), ['bob'])
        engine.publish_changes({'upsert': [self.entry('Group', 'team')]})
        self.assertEqual((self.who(engine), self.who(before)), ([], ['bob']))
        engine.publish_changes({'upsert': [self.entry('Group', 'team', ['staff']), self.ann], 'remove': [self.uid('User', 'bob')]})
        self.assertEqual((self.who(engine), self.who(before)), (['ann'], ['bob']))
        engine.close()
        self.assertRaises(bobbinjade.Closed, engine.publish_changes, {})
        self.assertRaises(bobbinjade.Closed, engine.with_changes, {})
        self.assertEqual(self.who(before), ['bob'])

    def test_refusals(self):
        ann, team, upsert = self.uid('User', 'ann'), self.entry('Group', 'team', ['team']), lambda *it: {'upsert': list(it)}
        changes = ((401, upsert(self.ann, self.ann)), (401, {'remove': [ann, ann]}), (402, upsert(team)),
                   (402, upsert(self.entry('Group', 'staff', ['team']))), (501, '{"upsert":['), (501, ''), (502, '[]'),
                   (502, {'removed': []}), (502, upsert(1)), (502, {'remove': ['User::"ann"']}), (503, upsert(self.entry('Ghost', 'g'))),
                   (504, upsert(self.entry('User', 'ann', age='30'))), (505, upsert(self.entry('User', 'ann'))),
                   (506, upsert(self.entry('Group', 'team', age=1))), (508, {'remove': [self.uid('Action', 'view')]}),
                   (509, upsert(self.entry('User', 'ann', age=1.5))))
        for number, given in changes:
            for call in (self.engine.publish_changes, self.engine.with_changes):
                with self.assertRaises(bobbinjade.Refused) as raised:
                    call(given)
                refused = raised.exception
                self.assertEqual((refused.file, refused.number, refused.offset), ('entities', number, None), given)
                self.assertTrue(refused.words.startswith('error[%d]: ' % number), refused.words)
                self.assertEqual(self.who(self.engine), ['bob'])
        with self.assertRaises(bobbinjade.Refused) as raised:
            self.engine.publish_changes(upsert(self.entry('Group', 'g'), self.entry('User', 'ann', age=1, agee=2)))
        self.assertEqual(raised.exception.words,
                         'error[506]: an attribute is not declared\n --> changes.json: upsert entry 1 (from 0), User::"ann"\n'
                         '   = attrs.agee: `User` has age\n   = hint: did you mean `age`?\n')
        self.assertRaises(ValueError, self.engine.publish_changes, {'upsert': [self.entry('User', 'ann', age=float('nan'))]})

    def test_many(self):
        for number in range(1000):
            self.engine.publish_changes({'upsert': [self.entry('User', 'u%d' % number, ['team'], age=number)],
                                         'remove': [self.uid('User', 'u%d' % (number - 1))]})
        may = [it for it in range(1000) if self.engine.decide(('User', 'u%d' % it), 'Action::"view"', 'Group::"staff"')]
        self.assertEqual((may, self.who(self.engine)), ([999], ['bob']))

    def test_kept_changes(self):
        """What is kept of changes, as docs/DATA.md has it."""
        engine, names = self.engine, ['u%d' % it for it in range(1000)]
        self.assertEqual(engine.kept_changes(), 0)
        engine.publish_changes({'upsert': [self.entry('User', it, age=1) for it in names]})
        self.assertEqual(engine.kept_changes(), 1000)
        with engine.with_changes({'upsert': [self.ann]}) as other:
            self.assertEqual((other.kept_changes(), engine.kept_changes()), (1001, 1000))
        engine.publish_changes({'remove': [self.uid('User', it) for it in names]})
        self.assertLessEqual(engine.kept_changes(), 126)
        engine.publish_changes({'remove': [self.uid('User', 'bob')]})
        self.assertGreaterEqual(engine.kept_changes(), 1)
        engine.publish_entities('[]')
        self.assertEqual(engine.kept_changes(), 0)
        engine.close()
        self.assertRaises(bobbinjade.Closed, engine.kept_changes)

    def test_requests_with_entities(self):
        for _ in range(10):
            with self.engine.with_changes({'upsert': [self.ann]}) as other:
                self.assertEqual((self.who(other), self.who(self.engine)), (['ann', 'bob'], ['bob']))
                other.publish_changes({'remove': [self.uid('User', 'bob')]})
                self.assertEqual((self.who(other), self.who(self.engine)), (['ann'], ['bob']))
            self.assertRaises(bobbinjade.Closed, self.who, other)

    def bringing(self, entities):
        """The request line of ann, who wants to view, with entities that it brings."""
        return json.dumps({'principal': self.uid('User', 'ann'), 'action': self.uid('Action', 'view'),
                           'resource': self.uid('Group', 'staff'), 'entities': entities})

    def test_lines_with_entities(self):
        ann, allowed = self.ann, '{"decision":"allow","determining":["staff"],"erring":[]}'
        denied = '{"decision":"deny","determining":[],"erring":[]}'
        cases = (([], denied), ([ann], allowed), ([], denied), ([ann, ann], '{"refused":401}'), ({}, '{"refused":502}'),
                 ([ann, self.entry('Ghost', 'g')], '{"refused":503}'), ([self.entry('User', 'ann', ['team'])], '{"refused":505}'),
                 ([self.entry('Group', 'team'), ann], denied), ([ann], allowed))
        lines = '\n'.join(self.bringing(it) for it, _ in cases)
        for _ in range(3):
            self.assertEqual(self.engine.answer_with_entities(lines).splitlines(), [it for _, it in cases])
            self.assertEqual(self.who(self.engine), ['bob'])
        self.assertEqual(self.engine.answer_line(self.bringing([ann])), '{"refused":502}')

    def test_document(self):
        """The examples of docs/DATA.md."""
        with open(os.path.join(FOLDER, '..', 'docs', 'DATA.md'), encoding='utf-8') as file:
            text = file.read()
        schema, entities, changes = (re.search(r'^#+ %s\n.*?^```json\n(.*?)^```' % heading, text, re.M | re.S)[1]
                                     for heading in ('Entities, requests and links as JSON', 'Entities', 'Changes of entities'))
        engine = bobbinjade.Engine(schema, 'permit(principal in Team::"t", action, resource);', entities)
        refused = re.findall(r'^\| (\d+) \| .* \| `(.*)` \|$', text.split('### Refusals of changes\n')[1].split('\n## ')[0], re.M)
        self.assertGreater(len(refused), 5)
        for number, given in refused:
            with self.assertRaises(bobbinjade.Refused) as raised:
                engine.publish_changes(given)
            self.assertEqual(raised.exception.number, int(number), given)
        engine.publish_changes(changes)
        self.assertEqual([engine.decide(('User', name), 'Action::"delete"', 'Doc::"d"') for name in ('ann', 'eve')], [False, True])

    def test_examples(self):
        for name in names():
            schema, policies, entities, links = files_of(name)
            engine = bobbinjade.Engine(schema, policies, '[]', links)
            engine.publish_changes(b'{"upsert":' + entities + b'}')
            self.assertEqual(engine.answer(content(name, 'requests.jsonl')), content(name, 'answers.jsonl').decode())


def resident():
    """The bytes of this process that are resident, or None where the system does not say it."""
    if not os.path.exists('/proc/self/statm'):
        return None
    with open('/proc/self/statm', encoding='ascii') as file:
        return int(file.read().split()[1]) * os.sysconf('SC_PAGE_SIZE')


@unittest.skipUnless(resident(), 'the system does not say what is resident')
class Memory(unittest.TestCase):
    """An engine that nobody uses any more is freed, also while requests run: memory does not grow with publications."""
    PUBLICATIONS, ALLOWED = 100, 32 << 20
    SCHEMA = json.dumps({'': {
        'entityTypes': {'Group': {}, 'User': {'memberOfTypes': ['Group'],
                                              'shape': {'type': 'Record', 'attributes': {'name': {'type': 'String'}}}}},
        'actions': {'view': {'appliesTo': {'principalTypes': ['User'], 'resourceTypes': ['Group']}}}}})

    @staticmethod
    def entities():
        """500 groups, and 10,000 users with names, each in one of them: 2.1 MB."""
        groups = [{'uid': {'type': 'Group', 'id': 'group%d' % at}} for at in range(500)]
        users = [{'uid': {'type': 'User', 'id': 'user%d' % at}, 'attrs': {'name': 'x' * 100},
                  'parents': [{'type': 'Group', 'id': 'group%d' % (at % 500)}]} for at in range(10000)]
        return json.dumps(groups + users).encode()

    def ask(self, engine):
        while not self.is_over:
            self.is_right &= engine.decide('User::"user7"', 'Action::"view"', 'Group::"group1"')
            time.sleep(0.001)

    def test_publications(self):
        entities, self.is_over, self.is_right = self.entities(), False, True
        before = resident()
        engine = bobbinjade.Engine(self.SCHEMA, 'permit(principal in Group::"group7", action, resource);', entities)
        one = resident() - before
        threads = [threading.Thread(target=self.ask, args=(engine,)) for _ in range(16)]
        for thread in threads:
            thread.start()
        for _ in range(self.PUBLICATIONS):
            engine.publish_entities(entities)
        after, self.is_over = resident(), True
        for thread in threads:
            thread.join()
        print('%d MB before, one engine %d MB, %d MB after %d publications'
              % (before >> 20, one >> 20, after >> 20, self.PUBLICATIONS))
        self.assertTrue(self.is_right)
        self.assertLessEqual(after, before + 2 * one + self.ALLOWED)


class Versions(unittest.TestCase):
    """Eight threads ask while versions are published. The id of the policy of a version is its number; even ones permit, odd ones forbid."""
    COUNT = 1000
    SCHEMA = {'': {'entityTypes': {'Group': {}, 'User': {'memberOfTypes': ['Group']}, 'Notebook': {}},
                   'actions': {'write': {'appliesTo': {'principalTypes': ['User'], 'resourceTypes': ['Notebook']}}}}}

    def setUp(self):
        self.schema, _, self.entities, _ = files_of('notes')
        self.begun = self.done = self.count = 0
        self.is_over = False
        self.wrong = []

    def policies(self, number, principal='principal'):
        return '@id("%d") %s(%s, action, resource);' % (number % self.COUNT, 'forbid' if number % 2 else 'permit', principal)

    def ask(self, engine):
        while not self.is_over:
            first = self.done
            try:
                response = engine.authorize('User::"ann"', 'Action::"write"', 'Notebook::"plans"')
            except bobbinjade.Error as error:
                self.wrong.append(repr(error))
                return
            last = self.begun
            answered = int(response.determining[0])
            self.count += 1
            if all(it % self.COUNT != answered for it in range(first, last + 1)) or response.allowed == bool(answered % 2):
                self.wrong.append('%r is not of %d to %d' % (response, first, last))

    def repeat(self, call):
        while not self.is_over:
            try:
                call()
            except bobbinjade.Error as error:
                self.wrong.append(repr(error))
                return

    def swap(self, engine, publish, meanwhile):
        threads = [threading.Thread(target=self.ask, args=(engine,)) for _ in range(8)]
        threads.append(threading.Thread(target=self.repeat, args=(meanwhile,)))
        for thread in threads:
            thread.start()
        end = time.monotonic() + SECONDS
        while time.monotonic() < end:
            self.begun += 1
            publish(self.begun)
            self.done = self.begun
        self.is_over = True
        for thread in threads:
            thread.join()
        print('%d answers, %d versions' % (self.count, self.done))
        self.assertEqual(self.wrong, [])
        self.assertGreater(self.count, 8)
        self.assertGreater(self.done, 1)

    def test_swaps(self):
        """Entities that are published alone meanwhile bring no older policies back."""
        engine = bobbinjade.Engine(self.schema, self.policies(0), self.entities)
        self.swap(engine, lambda number: engine.publish(self.schema, self.policies(number), self.entities),
                  lambda: engine.publish_entities('[]'))

    def test_swaps_of_entities(self):
        """Ann is in the group of the number of the version, and each group has a policy. Refused entities meanwhile change nothing."""
        policies = ''.join(self.policies(at, 'principal in Group::"%d"' % at) for at in range(self.COUNT))

        def entities(number):
            parent = {'type': 'Group', 'id': str(number % self.COUNT)}
            return json.dumps([{'uid': {'type': 'User', 'id': 'ann'}, 'parents': [parent]}])

        def refuse():
            with self.assertRaises(bobbinjade.Refused):
                engine.publish_entities('{}')

        engine = bobbinjade.Engine(json.dumps(self.SCHEMA), policies, entities(0))
        self.swap(engine, lambda number: engine.publish_entities(entities(number)), refuse)

    def test_swaps_of_changes(self):
        """The same by changes, while another thread asks over changes of its own."""
        policies = ''.join(self.policies(at, 'principal in Group::"%d"' % at) for at in range(self.COUNT))
        ann = {'type': 'User', 'id': 'ann'}

        def changes(number):
            return {'upsert': [{'uid': ann, 'parents': [{'type': 'Group', 'id': str(number % self.COUNT)}]}]}

        def ask_apart():
            self.assertRaises(bobbinjade.Refused, engine.publish_changes, '[]')
            with engine.with_changes({'remove': [ann]}) as other:
                self.assertEqual(other.authorize('User::"ann"', 'Action::"write"', 'Notebook::"plans"').determining, [])

        engine = bobbinjade.Engine(json.dumps(self.SCHEMA), policies, json.dumps(changes(0)['upsert']))
        self.swap(engine, lambda number: engine.publish_changes(changes(number)), ask_apart)


if __name__ == '__main__':
    unittest.main()
