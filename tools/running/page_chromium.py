"""A headless Chromium that tools/running/page_test drives by the DevTools protocol over two pipes: messages of JSON that end with a null byte."""
import base64
import json
import os
import select
import shutil
import signal
import tempfile
import time

WORDS = ['--headless=new', '--no-sandbox', '--disable-gpu', '--no-first-run', '--disable-dev-shm-usage', '--disable-background-networking',
         '--disable-component-update', '--disable-sync', '--disable-features=BackForwardCache', '--remote-debugging-pipe', 'about:blank']


class Chromium:
    """A browser with one page."""

    def __init__(self, program='chromium'):
        self.folder = tempfile.mkdtemp()
        to, self.to = os.pipe()
        self.heard, heard = os.pipe()
        words = [program, '--user-data-dir=' + self.folder, *WORDS]
        nothing = [(os.POSIX_SPAWN_OPEN, number, os.devnull, os.O_RDWR, 0) for number in (0, 1, 2)]
        pipes = [(os.POSIX_SPAWN_DUP2, to, 3), (os.POSIX_SPAWN_DUP2, heard, 4)]
        self.child = os.posix_spawnp(program, words, {**os.environ, 'HOME': self.folder}, file_actions=nothing + pipes, setpgroup=0)
        os.close(to)
        os.close(heard)
        self.rest, self.events, self.count = b'', [], 0
        self.session = None
        targets = self.call('Target.getTargets')['targetInfos']
        page = next(it['targetId'] for it in targets if it['type'] == 'page')
        self.session = self.call('Target.attachToTarget', targetId=page, flatten=True)['sessionId']
        for domain in ('Runtime', 'Page', 'Log', 'Network'):
            self.call(domain + '.enable')

    def call(self, method, seconds=300, **parameters):
        """What a method gives."""
        self.count += 1
        message = {'id': self.count, 'method': method, 'params': parameters}
        if self.session:
            message['sessionId'] = self.session
        sent = json.dumps(message).encode() + b'\0'
        while sent:
            sent = sent[os.write(self.to, sent):]
        end = time.monotonic() + seconds
        while True:
            answer = self.next(end - time.monotonic())
            if answer.get('id') == self.count:
                if 'error' in answer:
                    raise RuntimeError('%s: %s' % (method, answer['error']))
                return answer['result']
            self.events.append(answer)

    def next(self, seconds):
        """The next message."""
        pieces = []
        while b'\0' not in self.rest:
            pieces.append(self.rest)
            if not select.select([self.heard], [], [], max(0, seconds))[0]:
                raise TimeoutError('the browser does not answer')
            self.rest = os.read(self.heard, 1 << 20)
            if not self.rest:
                raise EOFError('the browser has ended')
        message, _, self.rest = self.rest.partition(b'\0')
        return json.loads(b''.join(pieces) + message)

    def version(self):
        """Its name and its version."""
        return self.call('Browser.getVersion')['product']

    def size(self, width, height, is_dark=False):
        """Sets the size of the page in pixels, and light or dark."""
        self.call('Emulation.setDeviceMetricsOverride', width=width, height=height, deviceScaleFactor=1, mobile=False)
        self.call('Emulation.setEmulatedMedia', features=[{'name': 'prefers-color-scheme', 'value': 'dark' if is_dark else 'light'}])

    def open(self, address):
        """Opens an address in a new document, also where only the fragment is another."""
        self.call('Page.navigate', url='about:blank')
        self.until('location.href === "about:blank"')
        self.call('Page.navigate', url=address)

    def value(self, expression, seconds=300):
        """The value of an expression of JavaScript, or what it promises."""
        ended = self.call('Runtime.evaluate', seconds, expression=expression, awaitPromise=True, returnByValue=True)
        if 'exceptionDetails' in ended:
            raise RuntimeError(json.dumps(ended['exceptionDetails'])[:2000])
        return ended['result'].get('value')

    def until(self, expression, seconds=60):
        """Waits until an expression is true."""
        end = time.monotonic() + seconds
        while time.monotonic() < end:
            try:
                if self.value(expression):
                    return
            except RuntimeError:
                pass
            time.sleep(0.02)
        raise TimeoutError('not in time: ' + expression)

    def in_worker(self, expression):
        """The value of an expression in the worker of the page."""
        begin = len(self.events)
        for is_attached in (False, True):
            self.call('Target.setAutoAttach', autoAttach=is_attached, waitForDebuggerOnStart=False, flatten=True)
        attached = [it['params'] for it in self.events[begin:] if it.get('method') == 'Target.attachedToTarget']
        workers = [it['sessionId'] for it in attached if it['targetInfo']['type'] == 'worker']
        page, self.session = self.session, workers[0]
        try:
            return self.value(expression)
        finally:
            self.session = page

    def picture(self, path):
        """Writes a picture of the page."""
        with open(path, 'wb') as file:
            file.write(base64.b64decode(self.call('Page.captureScreenshot', format='png')['data']))

    def errors(self):
        """What the pages have thrown or logged as an error, or asked the network for beside themselves."""
        found = [it['params'] for it in self.events if it.get('method') == 'Runtime.exceptionThrown']
        found += [it['params'] for it in self.events if it.get('method') == 'Log.entryAdded' and it['params']['entry']['level'] == 'error']
        return found

    def requests(self):
        """The addresses that the pages have asked for."""
        return [it['params']['request']['url'] for it in self.events if it.get('method') == 'Network.requestWillBeSent']

    def close(self):
        """Ends the browser, and removes its folder."""
        try:
            self.session = None
            self.call('Browser.close', 10)
        except (RuntimeError, TimeoutError, EOFError, OSError):
            pass
        for _ in range(100):
            if os.waitpid(self.child, os.WNOHANG)[0]:
                break
            time.sleep(0.05)
        else:
            os.killpg(self.child, signal.SIGKILL)
            os.waitpid(self.child, 0)
        os.close(self.to)
        os.close(self.heard)
        shutil.rmtree(self.folder, ignore_errors=True)
