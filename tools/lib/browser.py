"""A browser without a window, driven over the DevTools protocol by two pipes: for pictures of pages, and for their tests."""
import base64
import json
import os
import shutil
import subprocess
import tempfile

NAMES = ('chromium', 'chromium-browser', 'google-chrome', 'chrome')

KEYS = {'ArrowRight': 39, 'ArrowLeft': 37, 'Home': 36, 'End': 35, 'Enter': 13, 'Escape': 27, 'PageDown': 34, 'PageUp': 33}
"""Keys that print no character, with their codes."""

SHIFT = 8


def path():
    """The path of a browser, or None."""
    return next(filter(None, map(shutil.which, NAMES)), None)


class Browser:
    """A browser with one page."""

    def __init__(self, width=1400, height=900, scheme='light'):
        self.folder = tempfile.TemporaryDirectory()
        down, up = os.pipe(), os.pipe()
        words = ['bash', '-c', 'exec "$@" 3<&%d 4>&%d' % (down[0], up[1]), 'bash', *self.words(width, height)]
        self.process = subprocess.Popen(words, pass_fds=(down[0], up[1]), stdin=subprocess.DEVNULL, stdout=subprocess.DEVNULL,
                                        stderr=subprocess.DEVNULL)
        os.close(down[0])
        os.close(up[1])
        self.to, self.back, self.rest = os.fdopen(down[1], 'wb', 0), os.fdopen(up[0], 'rb', 0), b''
        self.number, self.session = 0, None
        target = self.call('Target.createTarget', url='about:blank')['targetId']
        self.session = self.call('Target.attachToTarget', targetId=target, flatten=True)['sessionId']
        self.call('Page.enable')
        self.call('Emulation.setDeviceMetricsOverride', width=width, height=height, deviceScaleFactor=1, mobile=False)
        self.call('Emulation.setEmulatedMedia', features=[{'name': 'prefers-color-scheme', 'value': scheme}])

    def words(self, width, height):
        return [path(), '--headless=new', '--no-sandbox', '--disable-gpu', '--remote-debugging-pipe', '--user-data-dir=' + self.folder.name,
                '--disable-dev-shm-usage', '--no-first-run', '--disable-background-networking', '--hide-scrollbars',
                '--window-size=%d,%d' % (width, height), 'about:blank']

    def __enter__(self):
        return self

    def __exit__(self, *_):
        self.to.close()
        try:
            self.process.wait(10)
        except subprocess.TimeoutExpired:
            self.process.kill()
            self.process.wait()
        self.back.close()
        self.folder.cleanup()

    def call(self, method, **values):
        """What a call of the protocol answers."""
        self.number += 1
        said = {'id': self.number, 'method': method, 'params': values}
        if self.session:
            said['sessionId'] = self.session
        self.to.write(json.dumps(said).encode() + b'\0')
        return self.answer(lambda found: found.get('id') == self.number)

    def answer(self, is_meant):
        """The first message that is meant; those before it are passed over."""
        while True:
            found = json.loads(self.message())
            if 'error' in found and found.get('id') == self.number:
                raise AssertionError(found['error'])
            if is_meant(found):
                return found.get('result', found.get('params'))

    def message(self):
        """The next message, without the byte 0 that ends it."""
        pieces = [self.rest]
        while b'\0' not in pieces[-1]:
            pieces.append(os.read(self.back.fileno(), 1 << 16))
            if not pieces[-1]:
                raise AssertionError('the browser has ended')
        found, _, self.rest = b''.join(pieces).partition(b'\0')
        return found

    def open(self, file):
        self.call('Page.navigate', url='file://' + os.path.abspath(file))
        self.run('new Promise(done => document.readyState === "complete" ? done() : addEventListener("load", done))')

    def run(self, script):
        """The value of a script; what it throws is told."""
        found = self.call('Runtime.evaluate', expression=script, awaitPromise=True, returnByValue=True)
        if 'exceptionDetails' in found:
            raise AssertionError(found['exceptionDetails'].get('exception', {}).get('description', found['exceptionDetails']))
        return found['result'].get('value')

    def press(self, key, modifiers=0):
        """Presses a key and lets it go."""
        code = KEYS.get(key, ord(key.upper()) if len(key) == 1 else 0)
        said = {'key': key, 'windowsVirtualKeyCode': code, 'modifiers': modifiers}
        text = {'text': key} if len(key) == 1 else {'text': '\r'} if key == 'Enter' else {}
        self.call('Input.dispatchKeyEvent', type='keyDown', **said, **text)
        self.call('Input.dispatchKeyEvent', type='keyUp', **said)

    def type(self, text):
        self.call('Input.insertText', text=text)

    def click(self, x, y):
        for kind in ('mousePressed', 'mouseReleased'):
            self.call('Input.dispatchMouseEvent', type=kind, x=x, y=y, button='left', clickCount=1)

    def text(self, selector):
        """The text that an element shows."""
        return self.run('document.querySelector(%s).innerText' % json.dumps(selector))

    def picture(self, file):
        self.run('new Promise(done => requestAnimationFrame(() => requestAnimationFrame(done)))')
        with open(file, 'wb') as out:
            out.write(base64.b64decode(self.call('Page.captureScreenshot', format='png')['data']))
