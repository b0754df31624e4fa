"""What tools/running/page_test does with the playground in a browser, as a reader would (tests/page/reader.js)."""
import json
import os
import re
import subprocess
import sys
import tempfile
import time

TOP = os.path.dirname(os.path.dirname(os.path.dirname(os.path.abspath(__file__))))
sys.path.insert(0, os.path.join(TOP, 'tools'))
from binding_cases import BROKEN, content, example_names, language_of, shown_examples, write_broken  # noqa: E402

READER = os.path.join(TOP, 'tests', 'page', 'reader.js')
FILES = {'schema': 'schema.json', 'policies': 'policies.cedar', 'links': 'links.json', 'entities': 'entities.json'}
# The size of a page on a desk and on a phone.
WIDE, SMALL = (1280, 820), (390, 844)
# What is written in the page, for the contrast of its colours, and the least contrast (WCAG 2.1, success criterion 1.4.3).
WRITTEN = ('h1', 'header p', 'h2', 'h2 small', 'label', 'button', '#status', 'textarea', '.numbers', '.place', '.policy',
           '.allow .decision', '.deny .decision', '.refused .decision', '.request', '.erring', '.number', '.hint', '.notes', 'summary',
           'footer', 'code')
LEAST_CONTRAST = 4.5
# Shapes of high conditions: what is repeated before, in the middle, what is repeated after, and the end.
SHAPES = {'sums': ('1 + ', '1', '', ' == 1'), 'denials': ('!(', 'true', ')', ''), 'choices': ('if true then true else ', 'true', '', ''),
          'sets': ('[', '1', ']', '.isEmpty()'), 'faulty sums': ('1 + ', '"a"', '', ' == 1')}
HIGHER_THAN_ALL = 4000
# In the place of a call of the engine in the worker: a call that ends as one does for which the stack does not suffice.
STOPPING = """const stop = () => { throw new RangeError('Maximum call stack size exceeded'); };
  engine.exports = { ...engine.exports, cedar_raw_publish: stop }; 0"""
# Has a call of the engine take so many seconds more.
SECONDS = 4
SLOW = """const answer = engine.answer.bind(engine);
  engine.answer = lines => { for (const end = performance.now() + %d; performance.now() < end;); return answer(lines); }; 0"""
# In the place of the words of the engine: those on a part of a policy that is always false, which have no number.
GUARDED = '''%s
permit(principal, action, resource) when { principal has nam || principal.name == 1 };'''
GUARD = '''{"column":58,"file":"policies.cedar","hint":"did you mean `name`?","line":LINE,"marks":[{"column":58,"end_column":61,"line":LINE,
  "says":"`User` has no attribute `nam`"}],"notes":["policy `policy3`: it is false in each environment of the schema"],"policy":"policy3",
  "reason":"this `has` is always false","severity":"warning"}'''.replace('\n', '')
GUARDING = 'engine.explain = () => ({ status: 0, text: %s }); 0'
# Request lines that are refused, for the example tenants: each is wrong in another way.
REFUSED = b'''{"principal":"Tenants::User::ann","action":"Billing::Action::\\"view\\"","resource":"x"}
{"principal":"Tenants::User::\\"mara\\"","action":"Billing::Action::\\"vieww\\"","resource":"Billing::Invoice::\\"small\\""}
{

{"principal":"Tenants::User::\\"sue\\"","action":"Billing::Action::\\"view\\"","resource":"Billing::Invoice::\\"small\\"","context":{"a":1}}
{"principal":"Tenants::User::\\"m\xc3\xa9\\u0301\\"","action":"Billing::Action::\\"view\\"","entities":[]}
'''
MANY_LINES = 10000
# The milliseconds of something that is done with the policies.
TIMED = """(() => { const editor = page.editors.policies, began = performance.now();
  for (let turn = 0; turn < 100; turn++) { %s; }
  return (performance.now() - began) / 100; })()"""
# The row of a policy in what `cedar why` says of a request.
WHY_ROW = re.compile(r'^  (\S+) +(?:permit|forbid) ', re.M)
# Policies for the example todos, cut in ways that its own are not.
WHYS = {
    'sides': '''@permit("x") @ // a comment
id ("a\\"b") forbid (principal is User, action, resource is List) // when { "a && b }
when { resource has owner && resource.owner == principal && !(resource has readers && resource has editors) }
unless { resource has editors || resource has readers } when { true && "&& || }" != "a" };
permit (principal, action, resource) when { if context has lists then context.lists * 9223372036854775807 > 0 && true else false };
permit (principal, action, resource) unless { context has lists && context.lists > 0 || [1, 2].contains(3) || {a: 1}.a == 1 };
''',
}
# A policy whose permits would be too long.
LONG_POLICY = 'permit (principal, action, resource) when { %s };' % ' && '.join(['"%s" != ""' % ('x' * 2000)] * 60)
# Has the page have no storage, as in a private window.
REFUSING = "Object.defineProperty(window, 'localStorage', { get() { throw new DOMException('refused', 'SecurityError'); } });"
CONTROLS = ('textbox', 'combobox', 'checkbox', 'button', 'region', 'DisclosureTriangle')


class Pages:
    """The tests of the page."""

    def __init__(self, count, browser, program, pictures):
        self.judge, self.browser, self.program, self.pictures = count.judge, browser, program, pictures
        self.where, self.opened = '', {'about:blank'}

    def reader(self, action, *words):
        """What an action of tests/page/reader.js gives."""
        return self.browser.value('reader.%s(%s)' % (action, ', '.join(json.dumps(it) for it in words)))

    def shown(self, selector):
        """The texts of elements."""
        return self.reader('texts', selector)

    def status(self):
        """What the page says of the engine."""
        return self.shown('#status')[0]

    def picture(self, name):
        if self.pictures:
            self.browser.picture(os.path.join(self.pictures, name + '.png'))

    def settle(self):
        """Waits until the page shows what the engine says of its texts."""
        self.browser.until('page.isBusy === false && page.isWaiting === false && page.questions.size === 0')

    def open(self, where):
        self.where = where
        self.opened.add(where.split('#')[0])
        self.browser.open(where)
        self.loaded()

    def reload(self):
        self.browser.value('window.isOld = true')
        self.browser.call('Page.reload')
        self.browser.until('window.isOld === undefined')
        self.loaded()

    def loaded(self):
        """Waits until the page shows texts."""
        self.browser.until('document.documentElement.dataset.shown || document.documentElement.dataset.failed')
        with open(READER, encoding='utf-8') as file:
            self.browser.value(file.read())
        self.settle()

    def texts(self):
        """The texts of the page: schema, policies, links, entities and requests."""
        return self.browser.value('Object.values(page.texts())')

    def key(self, name, code):
        """Presses a key."""
        for kind in ('keyDown', 'keyUp'):
            self.browser.call('Input.dispatchKeyEvent', type=kind, key=name, code=name, windowsVirtualKeyCode=code)

    def choose(self, name):
        """Chooses an example, whatever texts it replaces."""
        if self.reader('choose', name):
            self.reader('answer', 'replace')
        self.settle()

    def write(self, name, text):
        self.reader('write', name, text)
        self.settle()

    def bent(self, example, name, old, new):
        """Chooses an example, and writes another part into one of its texts."""
        text = content(example, FILES[name]).decode()
        self.judge('the part %s of %s is there' % (old, example), old in text)
        self.choose(example)
        self.write(name, text.replace(old, new))

    def judge_done(self, name, call, status, text):
        """Judges the status and the text of a call of the engine."""
        found = self.reader('done', call)
        self.judge(name, found == [status, text], found)

    def judge_shown(self, name, selector, wanted):
        """Judges the texts of elements."""
        found = self.shown(selector)
        self.judge(name, found == wanted, found)

    def ended(self, call, folder, *words, lines=b''):
        """What the program ends with."""
        return subprocess.run([self.program, call, *words], cwd=folder, input=lines, capture_output=True, check=False)

    def examples(self, where):
        """Each example has the report and the answers that examples/ wants, and the page shows them."""
        self.browser.size(*WIDE)
        self.open(where)
        self.judge('the page begins at ' + where, self.browser.value('document.documentElement.dataset.failed === undefined'))
        self.judge_shown('the choice of examples', '#example option:not([hidden])', shown_examples())
        for name in shown_examples():
            self.choose(name)
            is_checked = self.browser.value('document.getElementById("language-4").checked')
            self.judge('the language of ' + name, is_checked is (language_of(name) == 4), is_checked)
            report, answers = [content(name, file).decode() for file in ('report.jsonl', 'answers.jsonl')]
            lines = [json.loads(line) for line in answers.splitlines()]
            self.judge_done('the report of ' + name, 'report', 0, report)
            self.judge_done('the answers of ' + name, 'answers', 0, answers)
            self.judge_shown('the answers that are shown of ' + name, '#answers .decision', [it.get('decision', 'refused') for it in lines])
            self.picture('%s-%s' % (where.split(':')[0], name))
            self.names(name, lines)

    def names(self, example, answers):
        """Each answer names its policies, and a press on a name selects that policy."""
        wanted = [[*it.get('determining', []), *(erring['policy'] for erring in it.get('erring', []))] for it in answers]
        self.judge('the policies that answers of %s name' % example, self.reader('policies') == wanted, self.reader('policies'))
        for policy in sorted({it for names in wanted for it in names}):
            name, text = self.reader('press', '#answers .policy', policy)
            self.judge('the place of ' + policy, self.is_policy(example, policy, name, text), (name, text))

    @staticmethod
    def is_policy(example, policy, name, text):
        """Whether a selected text is that of a policy: the statement that has its id or its place, or the id of its link."""
        literal = json.dumps(policy)
        if name == 'links':
            return text == literal
        if text.startswith('@id(%s)' % literal):
            return text.endswith(';') and text.count('@id(') == 1
        statements = content(example, 'policies.cedar').decode().split(';')
        return policy.startswith('policy') and text.rstrip(';') in statements[int(policy[6:])]

    def unknown(self, where):
        """A page with a module that the browser does not know says so, as in a browser without memories of 64 bits."""
        self.opened.add(where)
        self.browser.open(where)
        self.browser.until('document.documentElement.dataset.failed')
        said = self.browser.value('document.getElementById("status").textContent')
        self.judge('a module that the browser does not know', said.startswith('The engine does not run here') and '64-bit' in said, said)

    def broken(self):
        """Broken files: the line, the report and the words of the program, and findings with their numbers."""
        for number, (example, file, text) in enumerate(BROKEN):
            broken = content(example, text) if isinstance(text, str) else text
            if b'\xff' in broken:
                continue
            name = next(it for it in FILES if FILES[it] == file)
            self.choose(example)
            self.write(name, broken.decode())
            with tempfile.TemporaryDirectory() as folder:
                ended = self.ended('authorize', folder, *write_broken(folder, example, file, broken), '--diagnostics', 'json')
            self.judge_done('broken file %d' % number, 'publish', ended.returncode, ended.stdout.decode())
            self.judge_done('the words on broken file %d' % number, 'words', 0, ended.stderr.decode())
            said = [json.loads(line) for line in ended.stderr.splitlines()]
            wanted = ['error %d' % it['number'] for it in said if 'number' in it]
            found = self.shown('#report .number')
            self.judge('the findings of broken file %d' % number, wanted and found[:len(wanted)] == wanted, found)
            self.judge_shown('no answers of broken file %d' % number, '#answers .decision', [])

    def faults(self):
        """A fault that several environments have is one finding, which names them, with its place."""
        self.bent('photos', 'policies', 'resource.private }', 'resource.privat }')
        self.judge_shown('one finding', '#report .number', ['error 603'])
        self.judge('its environments', len(self.shown('#report .environments li')) == 6, self.shown('#report .environments li'))
        self.judge_shown('their count', '#report .environments summary', ['in 6 environments'])
        self.judge_shown('the count of faults', '#report-count', ['6 faults, 0 warnings'])
        self.judge_shown('the mark', '#policies-part mark', ['privat'])
        invalid = self.browser.value('[...document.querySelectorAll("[aria-invalid=true]")].map(it => it.id)')
        self.judge('the text that is marked as invalid', invalid == ['policies'], invalid)
        self.judge('the place', self.reader('press', '#report .place', 'policies, line 28, column 17') == ['policies', 'privat'])
        self.picture('fault')
        labels = 'resource.labels.contains("public") }'
        self.bent('photos', 'policies', labels, 'resource.labels.contains("é\U0001f600") && resource.lables.contains("public") }')
        self.judge_shown('a mark after a letter of two units', '#policies-part mark', ['lables'])
        self.write('policies', '@id("<b>&amp;</b>") permit(principal, action, resource) when { principal.x };')
        self.judge_shown('markup is text', '#report .policy', ['<b>&amp;</b>'])
        self.judge_shown('markup makes no element', '#report b', [])

    def warnings(self):
        """A warning is a finding, and requests are answered beside it."""
        policies = content('notes', 'policies.cedar').decode() + 'permit(principal, action, resource) when { false };'
        self.choose('notes')
        self.write('policies', policies)
        with tempfile.TemporaryDirectory() as folder:
            files = write_broken(folder, 'notes', 'policies.cedar', policies.encode())[:4]
            ended = self.ended('validate', folder, *files, '--diagnostics', 'json')
        self.judge_done('the report with a warning', 'report', 0, ended.stdout.decode())
        self.judge_shown('the warning', '#report .number', ['warning 650'])
        self.judge('the place of the warning', self.reader('press', '#report .place', 'policies, line 9, column 1') == ['policies', 'p'])
        self.judge_shown('the mark of the warning', '#policies-part mark.warning', ['p'])
        said = json.loads(ended.stderr)
        self.judge_shown('the hint of the warning', '#report .hint', ['Hint: ' + said['hint'].replace('`', '')])
        self.judge_done('answers beside a warning', 'answers', 0, content('notes', 'answers.jsonl').decode())

    def guards(self):
        """What the words say and the report does not, a part that is always false, is a finding without a number."""
        policies = content('notes', 'policies.cedar').decode()
        line = policies.count('\n') + 2
        policies = GUARDED % policies
        self.choose('notes')
        self.browser.in_worker(GUARDING % json.dumps(GUARD.replace('LINE', str(line)) + '\n'))
        self.write('policies', policies.replace('principal.name == 1', 'true'))
        self.judge_shown('a finding without a number', '#report .number', ['warning'])
        self.judge_shown('its mark', '#policies-part mark.warning', ['nam'])
        self.judge_shown('its policy', '#report .policy', ['policy3'])
        self.judge_shown('its count', '#report-count', ['0 faults, 0 warnings, 1 note'])
        self.judge_done('the files are accepted beside it', 'publish', 0, '')
        self.write('policies', policies)
        self.judge_shown('a finding without a number beside a fault', '#report .number', ['error 603', 'warning'])
        self.open(self.where)

    def refused(self):
        """A refused request has the words of the program, and its line is marked."""
        for name in example_names():
            self.choose(name)
            self.judge_refused(name, content(name, 'requests.jsonl'))
        self.choose('tenants')
        lines = REFUSED + content('tenants', 'requests.jsonl') * 15
        self.write('requests', lines.decode())
        self.picture('refused')
        self.browser.value('document.querySelector("#answers .more button").click()')
        self.settle()
        self.judge_refused('tenants', lines)

    def judge_refused(self, example, lines):
        """Judges what is said of the refused requests of lines, all of which are shown. The program explains the first ones, and the others
        are as these are."""
        with tempfile.TemporaryDirectory() as folder:
            files = write_broken(folder, example, 'policies.cedar', content(example, 'policies.cedar'))
            ended = self.ended('authorize', folder, *files, '--explain-lines', '--diagnostics', 'json', lines=lines)
        said = [it for it in map(json.loads, ended.stderr.splitlines()) if 'number' in it]
        wanted = [[str(it['number']), it['reason'], it.get('notes', []), 'Hint: ' + it['hint'] if 'hint' in it else None] for it in said]
        found, wanted = self.reader('refused'), json.loads(json.dumps(wanted).replace('`', ''))
        is_right = found[:len(wanted)] == wanted and all(it in wanted for it in found)
        self.judge('the refused requests of ' + example, is_right and wanted, (found, wanted))
        refused = [line.decode() or ' ' for line, answer in zip(lines.splitlines(), ended.stdout.splitlines()) if b'"refused"' in answer]
        self.judge_shown('the marks of refused requests of ' + example, '#requests-part mark.warning', refused)

    def whys(self):
        """What each policy came to is what `cedar why` says, and the part that is shown has the part that the program shows."""
        for name in example_names():
            self.choose(name)
            policies = content(name, 'policies.cedar').decode()
            self.judge_whys(name, policies, content(name, 'requests.jsonl'))
            self.picture('why-' + name)
        for name, policies in WHYS.items():
            self.choose('todos')
            self.write('policies', policies)
            self.judge_whys(name, policies, content('todos', 'requests.jsonl'), 'todos')
        self.choose('todos')
        for policies, wanted in ((LONG_POLICY, 'too long'), ('', 'no policies')):
            self.write('policies', policies)
            self.reader('openPolicies')
            self.settle()
            said = self.shown('#answers .policies p')
            self.judge('what each policy came to: ' + wanted, len(said) > 3 and wanted in said[0], said)
        self.choose('notes')

    def judge_whys(self, name, policies, requests, example=None):
        """Judges what is said of each policy for the requests of an example."""
        with tempfile.TemporaryDirectory() as folder:
            files = write_broken(folder, example or name, 'policies.cedar', policies.encode())
            ended = self.ended('why', folder, *files, '--json', lines=requests)
            words = self.ended('why', folder, *files, lines=requests).stdout.decode()
        wanted = [it for it in map(json.loads, ended.stdout.splitlines()) if 'decision' in it]
        orders = [WHY_ROW.findall(it) for it in words.split('\n\n') if ' refused ' not in it.split('\n')[0]]
        self.reader('openPolicies')
        self.settle()
        found = self.reader('results')
        self.judge('the answers with policies of ' + name, len(found) == len(wanted) > 3, (len(found), ended))
        for answer, order, (rows, others) in zip(wanted, orders, found):
            policies_of = sorted(answer['policies'], key=lambda it: order.index(it['policy']))
            said = [[it['policy'], it['effect'], it['result']] for it in policies_of]
            where = 'line %d of %s' % (answer['line'], name)
            self.judge('the policies of ' + where, [it[:3] for it in rows] == said, (rows, said))
            self.judge('the policies that are false by their scopes of ' + where, others == answer['false_by_scope'], (others, answer))
            for row, policy in zip(rows, policies_of):
                if policy['result'] in ('false', 'erred') and 'line' in policy:
                    begin = sum(map(len, policies.splitlines(True)[:policy['line'] - 1])) + policy['column'] - 1
                    self.judge('the part of ' + where, len(row) == 4 and row[3][0] <= begin < row[3][1], (row, policy, begin))

    def kept(self):
        """Changed texts are there again after a reload, and the page asks before an example replaces them."""
        self.choose('todos')
        self.judge('no question where nothing is lost', self.reader('choose', 'photos') is False)
        self.settle()
        for how, wait in (('at once', 0), ('after a while', 0.6)):
            self.write('policies', 'permit(principal, action, resource); // ' + how)
            self.write('links', ' []')
            time.sleep(wait)
            texts = self.texts()
            self.reload()
            self.judge('the texts after a reload ' + how, self.texts() == texts, self.texts())
            self.judge('the page says so', self.status().startswith('Here are your texts again.'), self.status())
        for answer in ('Escape', 'keep', 'replace'):
            self.judge('a question before texts are replaced', self.reader('choose', 'notes') is True)
            focus = self.browser.value('document.activeElement.textContent')
            self.judge('where the question has the focus', focus == 'Keep my texts', focus)
            self.picture('question')
            if answer == 'Escape':
                self.reader('closing')
                self.key('Escape', 27)
                self.browser.value('reader.closed')
            else:
                self.reader('answer', answer)
            self.settle()
            self.judge('the texts after ' + answer, (self.texts() == texts) is (answer != 'replace'), self.texts())
            chosen = self.browser.value('document.getElementById("example").value')
            self.judge('the choice after ' + answer, chosen == ('notes' if answer == 'replace' else ''), chosen)
        self.reload()
        self.judge('nothing is kept after an example', self.texts()[1] == content(example_names()[0], 'policies.cedar').decode())

    def kept_links(self):
        """The changed texts of a link are kept for this link alone."""
        self.choose('notes')
        self.write('entities', '[ ]')
        self.browser.value('page.copyLink()')
        link = self.browser.value('location.href')
        self.judge('no question where a link has the texts', self.reader('choose', 'notes') is False)
        self.settle()
        self.write('entities', '[  ]')
        self.reload()
        self.judge('the changed texts of a link', self.texts()[3] == '[  ]', self.texts())
        self.open(self.where.split('#')[0])
        self.judge('the texts without the link', self.texts()[3] == '[ ]', self.texts())
        self.open(link)
        self.judge('the changed texts of the link again', self.texts()[3] == '[  ]', self.texts())
        self.open(link[:-2])
        self.judge('another link', 'no texts' in self.status(), self.status())
        self.open(self.where.split('#')[0])
        self.choose('notes')

    def kept_nowhere(self):
        """Where the browser refuses storage, the page is as it is with it, and nothing is kept. So it is for a text that is too large."""
        self.choose('notes')
        self.write('links', ' ' * 6000000)
        self.reload()
        self.judge('a text that is too large is not kept', self.texts()[2] == '')
        refused = self.browser.call('Page.addScriptToEvaluateOnNewDocument', source=REFUSING)['identifier']
        self.open(self.where)
        self.judge('the browser refuses storage', self.browser.value('(() => { try { localStorage; } catch { return true; } })()'))
        self.write('entities', '[]')
        self.judge('a question without storage', self.reader('choose', 'photos') is True)
        self.reader('answer', 'replace')
        self.settle()
        self.judge_done('the answers without storage', 'answers', 0, content('photos', 'answers.jsonl').decode())
        self.write('entities', '[]')
        self.reload()
        self.judge('nothing is kept without storage', self.texts()[3] == content(example_names()[0], 'entities.json').decode())
        self.browser.call('Page.removeScriptToEvaluateOnNewDocument', identifier=refused)
        self.open(self.where)

    def numbers(self):
        """Beside each text are the numbers of its lines. They move with it, and of many only those in view are drawn."""
        self.choose('photos')
        lines = content('photos', 'policies.cedar').decode().split('\n')
        self.judge('the first numbers', self.reader('numbers', 'policies', 1)[0][:10] == list(range(1, 11)))
        drawn, below = self.reader('numbers', 'policies', len(lines))
        self.judge('the last number', drawn[-1] == len(lines) and abs(below) < 1, (drawn, below))
        self.write('policies', '\n'.join(lines) + '// a line\n' * MANY_LINES)
        for line in (1, MANY_LINES // 2, MANY_LINES):
            drawn, below = self.reader('numbers', 'policies', line)
            self.judge('the number of line %d' % line, line in drawn and abs(below) < 1 and len(drawn) < 100, (drawn, below))
        self.picture('numbers')
        mark = self.browser.value('page.editors.policies.numbers.textContent.split("\\n")[1]')
        copied = self.reader('copied')
        self.judge('numbers are not copied', len(mark) == 4 and mark not in copied and 'Policies' in copied, (mark, copied))
        nodes = self.browser.call('Accessibility.getFullAXTree')['nodes']
        names = [it.get('name', {}).get('value', '') for it in nodes if not it.get('ignored')]
        self.judge('numbers are not read out', len(names) > 20 and not any(mark in str(it) for it in names), mark)
        steps = 'editor.area.scrollTop = turn * 777; editor.follow()', 'editor.count()'
        scrolling, typing = [self.browser.value(TIMED % it) for it in steps]
        print('%d lines: numbers cost %.1f ms in scrolling, %.1f ms for a letter' % (MANY_LINES, scrolling, typing))

    def any_decimal(self):
        """A string that is not a decimal is a fault, or with `any decimal` an error of the policy."""
        policies = self.policy('decimal(if principal == User::"ann" then "one" else "1.0") == decimal("1.0")')
        self.choose('notes')
        self.write('policies', policies)
        for words, call in (([], 'report'), (['--any-decimal'], 'answers')):
            with tempfile.TemporaryDirectory() as folder:
                files = write_broken(folder, 'notes', 'policies.cedar', policies.encode())
                requests = content('notes', 'requests.jsonl')
                ended = self.ended('authorize', folder, *files, *words, lines=requests)
            self.judge_done('the %s with %s' % (call, words), call, ended.returncode, ended.stdout.decode())
            self.browser.value('document.getElementById("any-decimal").click()')
            self.settle()
        self.judge('a decimal that is none', '"erring":[{"error":"decimal"' in ended.stdout.decode(), ended.stdout)
        self.choose('notes')
        self.judge('the choice of an example', self.browser.value('document.getElementById("any-decimal").checked') is False)

    def language(self):
        """Files of the language of Cedar 4 are refused without it, and it stays in links and over a reload."""
        self.choose('notes')
        here = os.path.join(TOP, 'tests', 'bindings', 'language_4')
        files = {file.split('.')[0]: file for file in ('schema.json', 'policies.cedar', 'entities.json', 'requests.jsonl')}
        for name, file in files.items():
            with open(os.path.join(here, file), encoding='utf-8') as text:
                self.write(name, text.read())
        words = [it for name, file in files.items() if name != 'requests' for it in ('--' + name, file)]
        with open(os.path.join(here, 'requests.jsonl'), 'rb') as text:
            lines = text.read()
        checked = 'document.getElementById("language-4").checked'
        for flags, call in (([], 'publish'), (['--language', '4'], 'answers')):
            ended = self.ended('authorize', here, *words, *flags, lines=lines)
            self.judge_done('the %s with %s' % (call, flags), call, ended.returncode, ended.stdout.decode())
            if not flags:
                self.browser.value('document.getElementById("language-4").click()')
                self.settle()
        self.reload()
        self.judge('the language after a reload', self.browser.value(checked) is True)
        self.browser.value('page.copyLink()')
        link, base = self.browser.value('location.href'), self.where.split('#')[0]
        self.choose('notes')
        self.judge('the language of an example', self.browser.value(checked) is False)
        self.open(link)
        self.judge('the language of a link', self.browser.value(checked) is True)
        self.judge_done('the answers of a link', 'answers', ended.returncode, ended.stdout.decode())
        for language, wanted in (('undefined', False), ('3', False), ('4', True), ('5', None)):
            fragment = self.browser.value('fragmentOf({ texts: page.texts(), anyDecimal: true, language: %s })' % language)
            self.open(base + fragment)
            found = [self.browser.value('document.getElementById("%s").checked' % it) for it in ('language-4', 'any-decimal')]
            self.judge('a link of the language %s' % language, found == ([wanted, True] if wanted is not None else [False, False]), found)
            self.judge('whether it is opened', ('no texts' in self.status()) is (wanted is None), self.status())
        self.open(base)
        self.choose('notes')

    def high(self):
        """The highest condition that the program accepts, and one that is higher, in several shapes. Where the stack of the browser does
        not suffice, the page says so."""
        for name, (before, middle, after, end) in SHAPES.items():
            low, high = 1, HIGHER_THAN_ALL
            while high - low > 1:
                half = (low + high) // 2
                is_accepted = self.judged(before * half + middle + after * half + end)[0] != 2
                low, high = (half, high) if is_accepted else (low, half)
            self.judge('%s have a greatest height' % name, 50 < low < HIGHER_THAN_ALL - 1, low)
            for height in (low, high):
                condition = before * height + middle + after * height + end
                self.choose('notes')
                self.write('policies', self.policy(condition))
                found, is_replaced = self.reader('done', 'report'), self.is_replaced()
                self.judge('%s, %d high' % (name, height), found == self.judged(condition) or is_replaced and found[0] == 'stopped', found)
                print('%s, %d high: %s' % (name, height, self.status()))
        self.choose('notes')
        self.judge_done('after high conditions', 'answers', 0, content('notes', 'answers.jsonl').decode())

    @staticmethod
    def policy(condition):
        return 'permit(principal, action, resource) when { %s };' % condition

    def judged(self, condition):
        """What the program says of a condition with the schema of notes: status and report."""
        with tempfile.TemporaryDirectory() as folder:
            words = write_broken(folder, 'notes', 'policies.cedar', self.policy(condition).encode())[:4]
            ended = self.ended('validate', folder, *words, '--quiet')
        return [ended.returncode, ended.stdout.decode()]

    def is_replaced(self):
        """Whether the page says that the engine has stopped and was started anew."""
        return 'The engine stopped and was started anew' in self.status()

    def links(self):
        """A link holds the texts, and the page of a link shows them."""
        self.bent('repositories', 'policies', '0.9500', '0.5')
        texts = self.browser.value('JSON.stringify(page.texts())')
        self.browser.value('page.copyLink()')
        address, base = self.browser.value('location.href'), self.where
        self.judge('the link holds the texts in its fragment', address.startswith(base + '#1.'), address[:200])
        self.open(address)
        self.judge('the texts of the link', self.browser.value('JSON.stringify(page.texts())') == texts)
        self.open(base + '#1.abc')
        self.judge('a link without texts', 'no texts' in self.status() and len(self.shown('#answers .decision')) > 1, self.status())
        self.open(base)

    def typing(self):
        """Of a large text that changes while the engine works, only the last one is worked on."""
        self.choose('photos')
        self.write('requests', content('photos', 'requests.jsonl').decode() * 2000)
        longest, before = self.reader('type', 'x' * 10), self.browser.value('page.number')
        self.reader('burst', 'y' * 5)
        self.settle()
        runs = self.browser.value('page.number') - before
        self.judge('only the last text is worked on', 1 <= runs <= 2, runs)
        wanted = content('photos', 'answers.jsonl').decode() * 2000 + '{"refused":501}\n'
        self.judge('26,001 answers', self.reader('done', 'answers') == [0, wanted])
        self.judge('the first answers are shown', len(self.shown('#answers .answer')) == 200)
        self.browser.value('(it => { it.click(); it.click(); })(document.querySelector("#answers .more button"))')
        self.settle()
        self.judge('more answers', len(self.shown('#answers .answer')) == 400)
        self.judge_shown('the others', '#answers .more button', ['Show more of the other 25,601'])
        print('26,001 lines: the page waited %.0f ms at most' % longest)

    def slow(self):
        """While the engine works for seconds, the page goes on."""
        self.choose('photos')
        self.browser.in_worker(SLOW % (SECONDS * 1000))
        longest = self.reader('type', 'x' * 10)
        self.judge('the page goes on', longest < SECONDS * 750, longest)
        self.judge_done('the answers of a slow engine', 'answers', 0, content('photos', 'answers.jsonl').decode() + '{"refused":501}\n')
        self.open(self.where)

    def stopped(self):
        """An engine that stops in a call is replaced, and the page says so."""
        policies = content('todos', 'policies.cedar').decode()
        self.choose('todos')
        self.browser.in_worker(STOPPING)
        self.write('policies', policies + '\n')
        self.judge('it says that the engine has stopped', self.is_replaced(), self.status())
        self.judge_shown('it shows no answers then', '#answers .decision', [])
        self.picture('stopped')
        self.write('policies', policies)
        self.judge_done('the engine that takes its place', 'answers', 0, content('todos', 'answers.jsonl').decode())

    def keyboard(self):
        """The keyboard reaches each control, and each has a name. No question has moved the focus before."""
        self.open(self.where)
        self.choose('photos')
        self.reload()
        self.choose('photos')
        reached = []
        for _ in range(14):
            self.key('Tab', 9)
            reached.append(self.browser.value('document.activeElement.id || document.activeElement.tagName'))
        wanted = ['example', 'any-decimal', 'language-4', 'copy-link', 'policies', 'SUMMARY', 'schema', 'entities', 'requests']
        self.judge('the order of the keyboard', [it for it in reached if it in wanted][:9] == wanted, reached)
        nodes = [it for it in self.browser.call('Accessibility.getFullAXTree')['nodes'] if not it.get('ignored')]
        controls = [it for it in nodes if it['role'].get('value') in CONTROLS]
        nameless = [it for it in controls if not it.get('name', {}).get('value')]
        self.judge('each control has a name', len(controls) > 20 and not nameless, nameless)
        roles = {it['role'].get('value') for it in nodes}
        self.judge('its parts have roles', {'main', 'banner', 'contentinfo', 'status', 'heading', 'list'} <= roles, roles)

    def looks(self):
        """Contrast in light and dark, and a small screen that does not scroll sideways."""
        for name in ('light', 'dark'):
            self.browser.size(*WIDE, name == 'dark')
            self.bent('photos', 'policies', 'resource.private }', 'resource.privat }')
            found = self.reader('contrasts', WRITTEN)
            self.choose('photos')
            found += self.reader('contrasts', WRITTEN)
            faint = [it for it in found if it[1] < LEAST_CONTRAST]
            colours = [self.reader('colours', '#answers .%s .decision' % kind) for kind in ('allow', 'deny', 'refused')]
            different = {it for some in colours for it in some}
            self.judge('the colours of decisions in ' + name, len(different) == 3 == sum(map(len, colours)), colours)
            self.judge('the contrast in ' + name, {it[0] for it in found} == set(WRITTEN) and not faint, faint)
            self.picture(name)
        self.browser.size(*SMALL)
        self.choose('repositories')
        width = self.browser.value('document.documentElement.scrollWidth')
        self.judge('a small screen', width <= SMALL[0], width)
        self.picture('small')
        self.browser.size(*WIDE)

    def network(self):
        """The page asks for nothing but itself."""
        asked = {it.split('#')[0] for it in self.browser.requests()}
        others = [it for it in asked - self.opened if not it.startswith(('blob:', 'data:'))]
        self.judge('the network', not others and len(asked & self.opened) > 2, (asked, self.opened))

    def attempt(self, test, *words):
        """Runs a test, and says how long it took. A test that the page does not go through fails."""
        began = time.monotonic()
        try:
            test(*words)
        except (RuntimeError, TimeoutError) as fault:
            self.judge(test.__name__, False, fault)
        print('%s: %.1f s' % (test.__name__, time.monotonic() - began))

    def all(self, *addresses):
        """All tests: the examples and links at each address, and the others at the last one."""
        for where in addresses:
            for test, *words in ((self.examples, where), (self.links,), (self.kept,)):
                self.attempt(test, *words)
        for test in (self.broken, self.faults, self.warnings, self.guards, self.refused, self.whys, self.kept_links, self.kept_nowhere,
                     self.numbers, self.any_decimal, self.language, self.high, self.typing, self.slow, self.stopped, self.keyboard, self.looks,
                     self.network):
            self.attempt(test)
