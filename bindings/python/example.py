"""Publishes the files of a folder, and answers requests: python3 example.py FOLDER [LINKS], for example examples/notes. LINKS is a file of
links."""
import json
import os
import sys

import bobbinjade


def content(name):
    """A file of the folder. One that is not there ends the example: an empty text in its place would be other policies."""
    with open(os.path.join(sys.argv[1] if len(sys.argv) > 1 else 'examples/notes', name), 'rb') as file:
        return file.read()


def links():
    """The links, or None where the command line names no file. A file of no bytes is refused, since the library takes it for no file."""
    if len(sys.argv) < 3:
        return None
    with open(sys.argv[2], 'rb') as file:
        text = file.read()
    if not text:
        sys.exit('%s: a file of links has a list' % sys.argv[2])
    return text


def main():
    files = [content(name) for name in ('schema.json', 'policies.cedar', 'entities.json')] + [links()]
    engine = bobbinjade.Engine(*files)

    # Any number of threads may ask, also while another publishes.
    response = engine.authorize('User::"ann"', 'Action::"write"', ('Notebook', 'plans'))
    print(response.decision, 'determined by', response.determining)

    # All request lines of the folder, as `cedar authorize` answers them.
    print(engine.answer(content('requests.jsonl')), end='')

    # Entities that changed are read alone, and the policies are not read again. Threads may ask meanwhile.
    engine.publish_entities(content('entities.json'))

    # One user is stored, and another is gone. What the changes do not name stays as it is.
    engine.publish_changes({'upsert': [{'uid': {'type': 'User', 'id': 'dora'}}], 'remove': [{'type': 'User', 'id': 'bob'}]})

    # A request that brings its entities. No other request sees them.
    with engine.with_changes({'upsert': [{'uid': {'type': 'User', 'id': 'ann'}}]}) as once:
        response = once.authorize('User::"ann"', 'Action::"write"', 'Notebook::"plans"')
    print(response.decision)

    # A request line that brings its entities. No other line sees them.
    line = {'principal': 'User::"ann"', 'action': 'Action::"write"', 'resource': 'Notebook::"plans"',
            'entities': [{'uid': {'type': 'User', 'id': 'ann'}}]}
    print(engine.answer_with_entities(json.dumps(line)), end='')

    # Policies of others: their report comes in parts, and may be left at any of them. After 100 lines only the counts go on.
    for part in bobbinjade.validate_parts(files[0], files[1], files[3], lines=100):
        print(part, end='')

    # Policies that are refused change nothing.
    try:
        engine.publish(files[0], 'permit(', files[2])
    except bobbinjade.Refused as refused:
        print('refused', refused.number, 'at', refused.offset, 'in line', refused.line)
    engine.close()


if __name__ == '__main__':
    main()
