"""Chromium without a window, which does what a script says by the DevTools protocol over two pipes."""
import contextlib
import fcntl
import json
import os
import select
import shutil
import subprocess
import time

CHROMIUM = shutil.which('chromium')
# where the browser reads and writes
READS, WRITES, CLEAR = 3, 4, 64
# how long an answer may take, in seconds
PATIENCE = 30


class Page:
    """A page in a browser that is running."""

    def __init__(self, browser, address):
        self.browser = browser
        target = browser.ask('Target.createTarget', url=address)['targetId']
        self.session = browser.ask('Target.attachToTarget', targetId=target, flatten=True)['sessionId']

    def value(self, words):
        """The value of an expression of JavaScript in the page, once it is there."""
        told = self.browser.ask('Runtime.evaluate', self.session, expression=words, awaitPromise=True, returnByValue=True)
        if 'exceptionDetails' in told:
            raise RuntimeError(f'{words}: {told["exceptionDetails"]["exception"].get("description")}')
        return told['result'].get('value')

    def wait(self, words, patience=PATIENCE):
        """Whether an expression comes true in the page."""
        end = time.monotonic() + patience
        while time.monotonic() < end:
            if self.value(words):
                return True
            time.sleep(0.1)
        return False

    def drag(self, left, right, height):
        """Moves the mouse from one place of the page to another with its button down."""
        for kind, at in (('mousePressed', left), ('mouseMoved', (left + right) / 2), ('mouseMoved', right),
                         ('mouseReleased', right)):
            self.browser.ask('Input.dispatchMouseEvent', self.session, type=kind, x=at, y=height, button='left', buttons=1,
                             clickCount=1)


class Browser:
    def __init__(self, program, to_program, from_program):
        self.program, self.to_program, self.from_program = program, to_program, from_program
        self.asked, self.heard = 0, b''

    def ask(self, method, session=None, **words):
        """The browser's answer. Its events are passed over."""
        self.asked += 1
        request = {'id': self.asked, 'method': method, 'params': words} | ({'sessionId': session} if session else {})
        os.write(self.to_program, json.dumps(request).encode() + b'\0')
        while (told := json.loads(self.message())).get('id') != self.asked:
            pass
        if 'error' in told:
            raise RuntimeError(f'{method}: {told["error"]["message"]}')
        return told['result']

    def message(self):
        """The next message, which ends with a byte of 0."""
        while b'\0' not in self.heard:
            if not select.select([self.from_program], [], [], PATIENCE)[0]:
                raise RuntimeError('the browser does not answer')
            piece = os.read(self.from_program, 65_536)
            if not piece:
                raise RuntimeError('the browser has ended')
            self.heard += piece
        message, _, self.heard = self.heard.partition(b'\0')
        return message


@contextlib.contextmanager
def browsing(folder):
    """A browser whose files lie in this folder."""
    its_reads, to_program = os.pipe()
    from_program, its_writes = os.pipe()
    words = [CHROMIUM, '--headless', '--disable-gpu', '--remote-debugging-pipe', f'--user-data-dir={folder}/browser',
             '--autoplay-policy=no-user-gesture-required', '--no-first-run', '--disable-dev-shm-usage',
             '--window-size=1000,900']
    # its sandbox asks for a user that isn't root
    words += ['--no-sandbox'] * (os.geteuid() == 0)

    def place():
        # first out of the way of each other
        reads, writes = (fcntl.fcntl(pipe, fcntl.F_DUPFD, CLEAR) for pipe in (its_reads, its_writes))
        os.dup2(reads, READS)
        os.dup2(writes, WRITES)

    with (open(os.path.join(folder, 'browser.log'), 'wb') as log,
          subprocess.Popen(words, stdin=subprocess.DEVNULL, stdout=log, stderr=log, close_fds=False, preexec_fn=place,
                           cwd=folder) as program):
        os.close(its_reads)
        os.close(its_writes)
        try:
            browser = Browser(program, to_program, from_program)
            yield browser
            with contextlib.suppress(RuntimeError):
                browser.ask('Browser.close')
            program.wait(PATIENCE)
        finally:
            os.close(to_program)
            os.close(from_program)
            program.kill()
