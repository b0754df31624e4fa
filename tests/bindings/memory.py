"""Refuses each growth of memory of the library in turn, in calls of the binding for Python: memory.py FOLDER, where FOLDER is
examples/notes. The library is linked with refusing.c. The last line is 'N passed, M failed'.

A call then raises OutOfMemory, or ends as with ample memory. The same call ends as usual afterwards."""
import ctypes
import os
import sys

import bobbinjade
from bobbinjade.library import LIBRARY

GRANTED = ctypes.c_long.in_dll(LIBRARY, 'granted_before_refusal')
COUNTS = {True: 0, False: 0}


def try_each(name, call):
    """Makes a call again and again, until no request for memory is refused any more. The call gets whether one may be."""
    for number in range(1_000_000):
        GRANTED.value = number
        try:
            is_right, is_over = call(True), GRANTED.value >= 0
        except bobbinjade.OutOfMemory:
            is_over = GRANTED.value >= 0
            is_right = not is_over
        GRANTED.value = -1
        is_right = is_right and call(False)
        COUNTS[is_right] += 1
        if not is_right:
            print('%s: request %d refused' % (name, number))
        if is_over:
            return


def main():
    def content(name):
        with open(os.path.join(sys.argv[1], name), 'rb') as file:
            return file.read()

    files = [content(name) for name in ('schema.json', 'policies.cedar', 'entities.json')]
    requests, answers = content('requests.jsonl').decode(), content('answers.jsonl').decode()
    uids = 'User::"ann"', 'Action::"write"', 'Notebook::"plans"'
    engine = bobbinjade.Engine(*files)

    def asks(_):
        return (engine.decide(*uids) and engine.authorize(*uids).text == answers.split('\n', maxsplit=1)[0]
                and engine.answer(requests) == answers and engine.answer_line(requests.splitlines()[0]) == answers.splitlines()[0])

    def publishes(is_refusing):
        engine.publish(*files)
        return asks(is_refusing)

    def refuses(is_refusing):
        try:
            engine.publish(files[0], b'permit(', files[2])
        except bobbinjade.Refused as refused:
            # Where memory is refused, words and line may be missing.
            return (refused.number, refused.offset) == (201, 7) and (is_refusing or refused.line == 1) and asks(is_refusing)
        return False

    def publishes_entities(is_refusing):
        engine.publish_entities(files[2])
        return asks(is_refusing)

    def refuses_entities(is_refusing):
        try:
            engine.publish_entities('{}')
        except bobbinjade.Refused as refused:
            return (refused.file, refused.number, refused.offset) == ('entities', 502, None) and asks(is_refusing)
        return False

    changes = b'{"upsert":' + files[2] + b'}'

    def publishes_changes(is_refusing):
        engine.publish_changes(changes)
        return asks(is_refusing)

    def refuses_changes(is_refusing):
        try:
            engine.publish_changes('[]')
        except bobbinjade.Refused as refused:
            return (refused.file, refused.number, refused.offset) == ('entities', 502, None) and asks(is_refusing)
        return False

    brought = '%s,"entities":%s}\n' % (requests.split('}', maxsplit=1)[0], files[2].decode().replace('\n', ' '))

    def answers_with_entities(is_refusing):
        return engine.answer_with_entities(brought + requests) == answers.split('\n', maxsplit=1)[0] + '\n' + answers and asks(is_refusing)

    def asks_over_changes(is_refusing):
        with engine.with_changes(changes) as other:
            return other.answer(requests) == answers and asks(is_refusing)

    try_each('ask', asks)
    try_each('publish', publishes)
    try_each('publish what is refused', refuses)
    try_each('publish entities', publishes_entities)
    try_each('publish entities that are refused', refuses_entities)
    try_each('publish changes', publishes_changes)
    try_each('publish changes that are refused', refuses_changes)
    try_each('answer lines with entities', answers_with_entities)
    try_each('ask over changes', asks_over_changes)
    try_each('validate', lambda _: bobbinjade.validate(*files[:2]).is_accepted and bobbinjade.explain(*files) == '')
    report = bobbinjade.validate(*files[:2]).text
    try_each('validate in parts', lambda _: ''.join(bobbinjade.validate_parts(*files[:2])) == report and engine.kept_changes() > 0)
    print('%d passed, %d failed' % (COUNTS[True], COUNTS[False]))
    return COUNTS[False] != 0


if __name__ == '__main__':
    sys.exit(main())
