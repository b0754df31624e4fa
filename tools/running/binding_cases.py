"""What tools/running/bindings has the bindings answer and refuse: the examples of examples/, broken files, and worked answers."""
import collections
import glob
import json
import os
import re

TOP = os.path.dirname(os.path.dirname(os.path.dirname(os.path.abspath(__file__))))
EXAMPLES = os.path.join(TOP, 'examples')
# The worked runs of the program, and the cases of the kind `answer`.
WORKED = ('tests/program/*.jsonl', 'tests/unproved/cases/data/answers.jsonl')
FILES = ('schema.json', 'policies.cedar', 'links.json', 'entities.json')
# The text of a case of the kind `answer`: the decision, the determining policies, and after `!` each error with its policy.
ANSWER = re.compile(r'(allow|deny)((?: \w+)*)((?:!\w+ \w+)*)')
ANY_DECIMAL, IN_LINES, LANGUAGE = '--any-decimal', '--entities-in-lines', '--language'
LANGUAGES = {'3': 0, '4': 2}
UID = re.compile(r'(\w+(?:::\w+)*)::"([^"\\]*)"')
# Broken files: the example, the file, and in its place a file of the example or a text.
BROKEN = [('notes', 'policies.cedar', 'broken_policies.cedar'), ('tenants', 'policies.cedar', 'broken_policies.cedar'),
          ('photos', 'entities.json', 'broken_entities.json'), ('todos', 'schema.json', 'broken_schema.json'),
          ('repositories', 'links.json', 'broken_links.json'), ('notes', 'schema.json', b'{'), ('notes', 'entities.json', b'[{}]'),
          ('notes', 'policies.cedar', b'permit(principal, action, resource) when { principal.age > 1 };' * 40),
          ('notes', 'policies.cedar', b'permit(principal, action, resource) when { 1 % 2 };'), ('photos', 'policies.cedar', b'\xff')]


def content(*names):
    """The bytes of a file of examples/; none where it is not there."""
    path = os.path.join(EXAMPLES, *names)
    if not os.path.exists(path):
        return b''
    with open(path, 'rb') as file:
        return file.read()


def example_names():
    """The folders of examples/ that have answers. One that needs an option of the program (its file `options`) is left out, since the hosts
    publish the files of an example without settings."""
    return sorted(it for it in os.listdir(EXAMPLES) if content(it, 'answers.jsonl') and not content(it, 'options'))


def shown_examples():
    """The folders of examples/ that have answers, in whichever language."""
    return sorted(it for it in os.listdir(EXAMPLES) if content(it, 'answers.jsonl'))


def language_of(example):
    """The language of an example: that of its option, or else the default one."""
    return 4 if content(example, 'options').decode().split() == [LANGUAGE, '4'] else 3


def parts_of(line):
    """The fields of a request line: three types with their ids, and the context; None where the line does not read as parts."""
    try:
        request = json.loads(line)
        uids = [request.pop(key) for key in ('principal', 'action', 'resource')]
        context = request.pop('context', None)
        found = [UID.fullmatch(it) if isinstance(it, str) else None for it in uids]
    except (ValueError, KeyError, AttributeError, TypeError):
        return None
    if request or not all(found):
        return None
    context = b'' if context is None else json.dumps(context, separators=(',', ':'), ensure_ascii=False).encode()
    return b'\x1f'.join([part.encode() for it in found for part in it.groups()] + [context])


def modes(example):
    """The ways in which a host answers or judges an example: the mode, the standard input and the wanted standard output."""
    requests, wanted = content(example, 'requests.jsonl'), content(example, 'answers.jsonl')
    parts = [parts_of(it) for it in requests.splitlines()]
    cut = [(fields + b'\n', answer) for fields, answer in zip(parts, wanted.splitlines(True)) if fields]
    brought = content(example, 'requests_with_entities.jsonl'), content(example, 'answers_with_entities.jsonl')
    return [('batch', requests, wanted), ('lines', requests, wanted), ('entities', requests, wanted),
            ('changes', requests, wanted), *([('brought', *brought)] if brought[0] else []),
            ('parts', b''.join(it[0] for it in cut), b''.join(it[1] for it in cut)),
            ('validate', b'', content(example, 'report.jsonl')), ('words', b'', b'')]


def write_broken(folder, example, changed, text):
    """Writes the files of an example, of which one is broken, into a folder. Gives the words that name them on a command line."""
    words = []
    for file in FILES:
        broken = content(example, text) if isinstance(text, str) else text
        if content(example, file) or file == changed:
            with open(os.path.join(folder, file), 'wb') as to:
                to.write(broken if file == changed else content(example, file))
            words += ['--' + file.split('.')[0], file]
    return words


def cases_of_answers():
    """The worked runs of `cedar authorize`, and the cases that are answers."""
    for path in sorted(path for it in WORKED for path in glob.glob(os.path.join(TOP, it))):
        with open(path, encoding='utf-8') as file:
            yield from (it for it in map(json.loads, file) if it['kind'] in ('authorize', 'answer'))


def text_of(case, key):
    """The bytes of a text of a case; None where the case does not have it."""
    if key not in case:
        return None
    if isinstance(case[key], dict):
        return bytes(case[key]['bytes'])
    parts = [case[key]] if isinstance(case[key], str) else case[key]
    return ''.join(it if isinstance(it, str) else it['repeat'] * it['times'] for it in parts).encode()


def options_of(case):
    """The settings of a case as the library takes them, and whether its lines bring entities; None where it has another option."""
    words, settings, brings = list(case.get('args', ())), LANGUAGES[str(case.get('language', 3))], False
    while words:
        word = words.pop(0)
        if word == ANY_DECIMAL:
            settings |= 1
        elif word == IN_LINES:
            brings = True
        elif word == LANGUAGE and words and words[0] in LANGUAGES:
            settings |= LANGUAGES[words.pop(0)]
        else:
            return None
    return settings, brings


def why_left_out(case):
    """Why a case is not one for a binding; None where it is one."""
    is_answer = case['kind'] == 'answer'
    needed = ['schema', 'policies'] + ['entities'] * (not is_answer)
    if any(text_of(case, key) is None for key in needed):
        return 'a file is missing, and only the program looks for one'
    if text_of(case, 'links') == b'':
        return 'a binding takes links of no bytes for no file'
    if options_of(case) is None:
        return 'an option is only of the program'
    if 'stdout' not in case:
        return 'only a part of the wanted text is known'
    if is_answer and case['stdout'] == 'does not fit':
        return 'the case does not say the number of the refused request'
    return None


def request_line(case):
    """The request line of a case of the kind `answer`. Its context is a record of Cedar such as {n: 1}."""
    request = {key: case[key] for key in ('principal', 'action', 'resource')}
    if 'context' in case:
        request['context'] = json.loads(re.sub(r'(\w+):', r'"\1":', case['context']))
    return json.dumps(request).encode() + b'\n'


def answer_line(text):
    """The answer line that has the text of a case of the kind `answer`."""
    decision, determining, erring = ANSWER.fullmatch(text).groups()
    erring = [dict(zip(('error', 'policy'), it.split())) for it in erring.split('!')[1:]]
    answer = {'decision': decision, 'determining': determining.split(), 'erring': erring}
    return json.dumps(answer, separators=(',', ':'), ensure_ascii=False).encode() + b'\n'


def write_case(folder, case):
    """Writes what a binding reads of a case into a folder, and what is wanted of it. Gives the line of the case."""
    is_answer = case['kind'] == 'answer'
    files = {file: text_of(case, file.split('.')[0]) for file in FILES}
    if files['entities.json'] is None:
        files['entities.json'] = b'[]'
    files['requests.jsonl'] = request_line(case) if is_answer else text_of(case, 'stdin') or b''
    files['wanted.jsonl'] = answer_line(case['stdout']) if is_answer else text_of(case, 'stdout')
    os.makedirs(folder)
    for file, text in files.items():
        if text is not None:
            with open(os.path.join(folder, file), 'wb') as to:
                to.write(text)
    return '%s %d %d %d\n' % (case['name'], 0 if is_answer else case['status'], *options_of(case))


def write_cases(root):
    """Writes a folder for each case of answers, and the file `list`, which has a line for each: the folder, the wanted status, the settings as
    the library takes them, and 1 or 0 for whether lines bring entities. Gives the count of the cases, and of those left out, by reason."""
    lines, left_out = [], collections.Counter()
    for case in cases_of_answers():
        why = why_left_out(case)
        if why:
            left_out[why] += 1
        else:
            lines.append(write_case(os.path.join(root, case['name']), case))
    with open(os.path.join(root, 'list'), 'w', encoding='utf-8') as file:
        file.writelines(lines)
    return len(lines), left_out
