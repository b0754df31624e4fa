"""How fast calls are: speed.py FOLDER CALL THREADS COUNT, with the calls decide, authorize and answer-line over examples/notes. Prints the
nanoseconds of processor time that a call takes, and the calls of all threads in a second."""
import os
import sys
import threading
import time

import bobbinjade

LINE = '{"principal":"User::\\"ann\\"","action":"Action::\\"write\\"","resource":"Notebook::\\"plans\\""}'


def main():
    folder, kind, threads, calls = sys.argv[1], sys.argv[2], int(sys.argv[3]), int(sys.argv[4])
    files = []
    for name in ('schema.json', 'policies.cedar', 'entities.json'):
        with open(os.path.join(folder, name), 'rb') as file:
            files.append(file.read())
    engine = bobbinjade.Engine(*files)

    def run():
        decide, authorize, answer_line = engine.decide, engine.authorize, engine.answer_line
        if kind == 'answer-line':
            for _ in range(calls):
                answer_line(LINE)
        else:
            call = decide if kind == 'decide' else authorize
            for _ in range(calls):
                call('User::"ann"', 'Action::"write"', 'Notebook::"plans"')

    all_threads = [threading.Thread(target=run) for _ in range(threads)]
    spent, began = time.process_time(), time.monotonic()
    for thread in all_threads:
        thread.start()
    for thread in all_threads:
        thread.join()
    seconds, total = time.monotonic() - began, threads * calls
    print('%.0f %.0f' % ((time.process_time() - spent) / total * 1e9, total / seconds))


if __name__ == '__main__':
    main()
