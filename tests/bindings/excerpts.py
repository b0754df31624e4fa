"""Checks that each block of docs/EMBEDDING.md repeats lines of the example of its language. The last line is 'N passed, M failed'."""
import os
import sys

TOP = os.path.dirname(os.path.dirname(os.path.dirname(os.path.abspath(__file__))))
EXAMPLES = {'c': 'c/example.c', 'cpp': 'c/example.cpp', 'rs': 'rust/examples/notes.rs', 'python': 'python/example.py',
            'go': 'go/example/main.go'}


def plain(text):
    """The lines of a text without blank lines and indentation, each with a line feed."""
    return '\n' + ''.join(line.strip() + '\n' for line in text.splitlines() if line.strip())


def main():
    with open(os.path.join(TOP, 'docs', 'EMBEDDING.md'), encoding='utf-8') as file:
        blocks = file.read().split('```')[1::2]
    passed, left = 0, set(EXAMPLES)
    for block in blocks:
        language, _, text = block.partition('\n')
        with open(os.path.join(TOP, 'bindings', EXAMPLES[language]), encoding='utf-8') as file:
            is_there = plain(text) in plain(file.read())
        passed += is_there
        left.discard(language)
        if not is_there:
            print('docs/EMBEDDING.md: a block of %s is not in bindings/%s:\n%s' % (language, EXAMPLES[language], text))
    failed = len(blocks) - passed + len(left)
    print('%d passed, %d failed' % (passed, failed))
    return failed != 0


if __name__ == '__main__':
    sys.exit(main())
