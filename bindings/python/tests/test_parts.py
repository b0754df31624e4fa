"""Reports in parts. The schema has two environments, and a wrong policy has a fault in each."""
import copy
import json
import os
import sys
import unittest

sys.path.insert(0, os.path.dirname(os.path.dirname(os.path.abspath(__file__))))
import bobbinjade  # noqa: E402

SCHEMA = json.dumps({'': {'entityTypes': {'User': {}, 'Admin': {}, 'Doc': {}}, 'actions': {
    'view': {'appliesTo': {'principalTypes': ['User', 'Admin'], 'resourceTypes': ['Doc']}}, 'read': {}}}})
RIGHT = 'permit(principal, action, resource);\n'
WRONG = 'permit(principal, action, resource) when { resource.size > 0 };\n'
VAIN = 'forbid(principal, action == Action::"read", resource);\n'
MANY = 3000


def fault(policy, principal):
    return '{"action":{"id":"view","type":"Action"},"fault":603,"policy":"%s","principal":"%s","resource":"Doc"}\n' % (policy, principal)


def totals(faults, warnings):
    return '{"faults":%d,"warnings":%d}\n' % (faults, warnings)


def counts(parts):
    return parts.policies, parts.faults, parts.warnings, parts.is_accepted


class Parts(unittest.TestCase):
    maxDiff = 2000

    def test_short(self):
        parts = bobbinjade.validate_parts(SCHEMA, RIGHT + WRONG + VAIN)
        self.assertIsInstance(parts, bobbinjade.ReportParts)
        self.assertEqual(counts(parts), (0, 0, 0, False))
        wanted = fault('policy1', 'Admin') + fault('policy1', 'User') + '{"policy":"policy2","warning":650}\n' + totals(2, 1)
        self.assertEqual(next(parts), wanted)
        self.assertEqual(counts(parts), (3, 2, 1, False))
        self.assertEqual(list(parts), [])
        self.assertEqual(list(bobbinjade.validate_parts(SCHEMA, '')), [totals(0, 0)])

    def test_whole(self):
        for policy, faults, warnings, least in ((RIGHT, 0, 0, 3), (WRONG, 2 * MANY, 0, 9), (VAIN, 0, MANY, 3)):
            report = bobbinjade.validate(SCHEMA, policy * MANY)
            self.assertTrue(report.text.endswith(totals(faults, warnings)))
            parts, made = bobbinjade.validate_parts(SCHEMA.encode(), (policy * MANY).encode()), []
            for part in parts:
                made.append(part)
                self.assertLess(len(part), 65536 + 256)
                self.assertLessEqual(parts.policies, 1000 * len(made))
            self.assertGreaterEqual(len(made), least)
            self.assertTrue(''.join(made) == report.text)
            self.assertEqual(counts(parts), (MANY, faults, warnings, faults == 0))
            self.assertEqual(report.is_accepted, faults == 0)

    def test_lines(self):
        policies = WRONG * MANY
        report = bobbinjade.validate(SCHEMA, policies).text
        for lines in range(6):
            wanted = ''.join(report.splitlines(keepends=True)[:lines]) + totals(6000, 0)
            self.assertEqual(''.join(bobbinjade.validate_parts(SCHEMA, policies, lines=lines)), wanted)
        for lines in (6000, 10000, 2 ** 64 - 1, 2 ** 80, None):
            self.assertTrue(''.join(bobbinjade.validate_parts(SCHEMA, policies, lines=lines)) == report)
        self.assertRaises(ValueError, bobbinjade.validate_parts, SCHEMA, policies, lines=-1)
        self.assertRaises(TypeError, bobbinjade.validate_parts, SCHEMA, policies, lines='5')

    def test_leaving(self):
        policies = WRONG * MANY
        report = bobbinjade.validate(SCHEMA, policies).text
        parts = bobbinjade.validate_parts(SCHEMA, policies)
        for first in parts:
            break
        self.assertTrue(first.endswith('\n') and report.startswith(first) and len(first) < len(report))
        self.assertEqual(parts.faults, 2 * parts.policies)
        other = copy.copy(parts)
        self.assertTrue(first + ''.join(parts) == report)
        self.assertTrue(first + ''.join(other) == report)

    def test_refusals(self):
        broken = (((SCHEMA, 'permit('), 'policies', 201), (('{', RIGHT), 'schema', 301), ((SCHEMA, RIGHT, '{}'), 'links', 502))
        for given, file, number in broken:
            parts = bobbinjade.validate_parts(*given, lines=5)
            with self.assertRaises(bobbinjade.Refused) as raised:
                next(parts)
            refused = raised.exception
            self.assertEqual((refused.file, refused.number), (file, number))
            self.assertTrue(refused.words.startswith('error[%d]: ' % number), refused.words)
            self.assertEqual((counts(parts), list(parts)), ((0, 0, 0, False), []))

    def test_links_and_decimals(self):
        link = json.dumps([{'template_id': 't', 'link_id': 'l', 'args': {'?principal': 'User::"ann"'}}])
        template = '@id("t") permit(principal == ?principal, action, resource) when { resource.size > 0 };'
        decimal = 'permit(principal, action, resource) when { decimal("x") == decimal("1.0") };'
        for given in ((SCHEMA, template, link), (SCHEMA, decimal, None, True), (SCHEMA, decimal)):
            self.assertEqual(''.join(bobbinjade.validate_parts(*given)), bobbinjade.validate(*given).text)


if __name__ == '__main__':
    unittest.main()
