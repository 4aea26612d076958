"""A headless Chromium, for the tools that try pages. It is spoken to through two pipes, as its DevTools are."""
import base64, itertools, json, os, shutil, subprocess, sys, tempfile

NAMES = ('chromium', 'chromium-browser', 'google-chrome')
FLAGS = ['--headless', '--no-sandbox', '--disable-gpu', '--hide-scrollbars', '--force-color-profile=srgb',
         '--remote-debugging-pipe', 'about:blank']


class PageError(Exception):
    """The page's script failed."""


class Browser:
    """One page of a browser that ends with the `with` block."""
    def __enter__(self):
        name = next((x for x in NAMES if shutil.which(x)), None)
        if name is None:
            print('view_browser.py: there is no Chromium; Debian has it as the package chromium', file=sys.stderr)
            sys.exit(2)
        (theirs_in, ours_out), (ours_in, theirs_out) = os.pipe(), os.pipe()
        self.room, self.count, self.events = tempfile.TemporaryDirectory(), itertools.count(1), []

        def place():
            a, b = os.dup(theirs_in), os.dup(theirs_out)
            os.dup2(a, 3)
            os.dup2(b, 4)
        self.process = subprocess.Popen([name, '--user-data-dir=' + self.room.name, *FLAGS], preexec_fn=place,
                                        pass_fds=(3, 4), stdin=subprocess.DEVNULL, stdout=subprocess.DEVNULL,
                                        stderr=subprocess.DEVNULL)
        os.close(theirs_in)
        os.close(theirs_out)
        self.out, self.input, self.session = os.fdopen(ours_out, 'wb', 0), os.fdopen(ours_in, 'rb'), None
        target = next(t for t in self.ask('Target.getTargets')['targetInfos'] if t['type'] == 'page')
        self.session = self.ask('Target.attachToTarget', targetId=target['targetId'], flatten=True)['sessionId']
        for domain in ('Page', 'Runtime'):
            self.ask(domain + '.enable')
        return self

    def __exit__(self, *_):
        self.process.terminate()
        self.process.wait()
        self.room.cleanup()

    def read(self):
        text = bytearray()
        while (byte := self.input.read(1)) not in (b'\0', b''):
            text += byte
        said = json.loads(text)
        if said.get('method') == 'Runtime.exceptionThrown':
            raise PageError(json.dumps(said['params']['exceptionDetails'], indent=1))
        return said

    def ask(self, method, **words):
        number = next(self.count)
        asked = {'id': number, 'method': method, 'params': words}
        if self.session:
            asked['sessionId'] = self.session
        self.out.write(json.dumps(asked).encode() + b'\0')
        while True:
            said = self.read()
            if said.get('id') == number:
                if 'error' in said:
                    raise PageError(said['error']['message'])
                return said['result']
            self.events.append(said)

    def wait_for(self, method):
        while True:
            for said in self.events:
                if said.get('method') == method:
                    self.events.clear()
                    return said
            self.events.append(self.read())

    def open(self, path, at=''):
        """Opens the page of a file, and waits until it is loaded."""
        self.events.clear()
        self.ask('Page.navigate', url='about:blank')
        self.wait_for('Page.loadEventFired')
        self.ask('Page.navigate', url='file://' + os.path.abspath(path) + at)
        self.wait_for('Page.loadEventFired')

    def run(self, script):
        """The value of an expression in the page."""
        result = self.ask('Runtime.evaluate', expression=script, returnByValue=True, awaitPromise=True)
        if 'exceptionDetails' in result:
            raise PageError(json.dumps(result['exceptionDetails'], indent=1))
        return result['result'].get('value')

    def size(self, width, height, is_phone=False):
        self.ask('Emulation.setDeviceMetricsOverride', width=width, height=height,
                 deviceScaleFactor=2 if is_phone else 1, mobile=is_phone)

    def dark(self, is_dark):
        self.ask('Emulation.setEmulatedMedia', features=[
            {'name': 'prefers-color-scheme', 'value': 'dark' if is_dark else 'light'}])

    def key(self, key):
        for kind in ('keyDown', 'keyUp'):
            text = {'text': key} if len(key) == 1 and kind == 'keyDown' else {}
            self.ask('Input.dispatchKeyEvent', type=kind, key=key, **text)

    def click(self, x, y):
        for kind in ('mousePressed', 'mouseReleased'):
            self.ask('Input.dispatchMouseEvent', type=kind, x=x, y=y, button='left', clickCount=1)

    def picture(self, path):
        data = self.ask('Page.captureScreenshot', format='png')['data']
        with open(path, 'wb') as file:
            file.write(base64.b64decode(data))
