"""The binding over the cases of answers, in the folder that BOBBINJADE_CASES names, which tools/running/binding_cases.py has written."""
import os
import sys
import unittest

HERE = os.path.dirname(os.path.abspath(__file__))
sys.path.insert(0, os.path.dirname(HERE))
import bobbinjade  # noqa: E402

ROOT = os.environ.get('BOBBINJADE_CASES')
FILES = ('schema.json', 'policies.cedar', 'entities.json', 'links.json')


def content(*names):
    path = os.path.join(ROOT, *names)
    if not os.path.exists(path):
        return None
    with open(path, 'rb') as file:
        return file.read()


def refusal_line(refused):
    """The line that the program prints of a refused file."""
    offset = '' if refused.offset is None else '"offset":%d,' % refused.offset
    return '{"file":"%s",%s"refused":%d}\n' % (refused.file, offset, refused.number)


def answered(name, settings, brings_entities):
    """The status and the text of a case with the settings of cedar.h: its answers, or what the program prints of files that are refused."""
    language = 4 if settings & 2 else 3
    try:
        with bobbinjade.Engine(*[content(name, it) for it in FILES], any_decimal=bool(settings & 1), language=language) as engine:
            answer = engine.answer_with_entities if brings_entities else engine.answer
            return 0, answer(content(name, 'requests.jsonl')).encode()
    except bobbinjade.Refused as refused:
        return 2, refusal_line(refused).encode()
    except bobbinjade.Faults as faults:
        return 3, faults.report.encode()


@unittest.skipUnless(ROOT, 'BOBBINJADE_CASES is not set')
class Cases(unittest.TestCase):
    def test_answers(self):
        lines = content('list').decode().splitlines()
        passed = 0
        for line in lines:
            name, status, settings, brings_entities = line.split(' ')
            with self.subTest(name):
                found = answered(name, int(settings), brings_entities == '1')
                self.assertEqual(found, (int(status), content(name, 'wanted.jsonl')))
                passed += 1
        print('%d passed, %d failed' % (passed, len(lines) - passed))


if __name__ == '__main__':
    unittest.main()
