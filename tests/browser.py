"""A headless Chromium, driven over a pipe by the protocol of its developer tools, without a library and without a network."""
import base64
import json
import os
import select
import shutil
import subprocess
import tempfile
import time

WORDS = ['--headless', '--no-sandbox', '--disable-gpu', '--no-first-run', '--disable-background-networking', '--disable-component-update',
         '--disable-extensions', '--disable-sync', '--disable-dev-shm-usage', '--hide-scrollbars', '--remote-debugging-pipe']
PATIENCE = 60
SHIFT = 8
# What a browser tells of a page that is not as it should be, and of what it asks others for.
COMPLAINTS = 'Runtime.consoleAPICalled', 'Runtime.exceptionThrown', 'Log.entryAdded'
KEYS = {'Tab': 9, 'Enter': 13, 'Escape': 27, ' ': 32, 'ArrowLeft': 37, 'ArrowUp': 38, 'ArrowRight': 39, 'ArrowDown': 40}


def browser_path():
    """where Chromium is, or None"""
    return next((path for name in ('chromium', 'chromium-browser', 'google-chrome') if (path := shutil.which(name))), None)


class Browser:
    """a running browser; its messages end with a zero octet, and go in by descriptor 3 and out by 4"""
    def __init__(self):
        self.room = tempfile.mkdtemp(prefix='browser')
        to_browser, from_browser = os.pipe(), os.pipe()

        def attach():
            for held, descriptor in ((to_browser[0], 60), (from_browser[1], 61)):
                os.dup2(held, descriptor)
            os.dup2(60, 3)
            os.dup2(61, 4)

        self.child = subprocess.Popen([browser_path(), *WORDS, f'--user-data-dir={self.room}', 'about:blank'], preexec_fn=attach,
                                      pass_fds=(3, 4), stdin=subprocess.DEVNULL, stdout=subprocess.DEVNULL, stderr=subprocess.DEVNULL)
        os.close(to_browser[0])
        os.close(from_browser[1])
        self.writing, self.reading = to_browser[1], from_browser[0]
        self.last, self.held, self.answers, self.events = 0, b'', {}, []

    def close(self):
        try:
            self.send('Browser.close')
        except RuntimeError:
            pass
        os.close(self.writing)
        try:
            self.child.wait(PATIENCE)
        except subprocess.TimeoutExpired:
            self.child.kill()
        shutil.rmtree(self.room, ignore_errors=True)

    def send(self, method, session=None, **params):
        """the answer to a message"""
        self.last += 1
        message = {'id': self.last, 'method': method, 'params': params} | ({'sessionId': session} if session else {})
        octets = json.dumps(message).encode() + b'\0'
        while octets:
            octets = octets[os.write(self.writing, octets):]
        answer = self.wait(lambda: self.answers.pop(self.last, None), method)
        if 'error' in answer:
            raise RuntimeError(f"{method}: {answer['error']['message']}")
        return answer['result']

    def wait(self, found, what):
        """what `found` answers first that is not None, while messages come in"""
        end = time.monotonic() + PATIENCE
        while (value := found()) is None:
            if not select.select([self.reading], [], [], max(0, end - time.monotonic()))[0]:
                raise RuntimeError(f'{what}: no answer')
            octets = os.read(self.reading, 1 << 20)
            if not octets:
                raise RuntimeError(f'{what}: the browser has ended')
            self.take(octets)
        return value

    def take(self, octets):
        *messages, rest = octets.split(b'\0')
        if messages:
            messages[0] = self.held + messages[0]
            self.held = rest
        else:
            self.held += rest
        for message in map(json.loads, messages):
            if 'id' in message:
                self.answers[message['id']] = message
            else:
                self.events.append(message)


class Tab:
    """a page in a browser"""
    def __init__(self, browser, width=1280, height=800, dark=False, scripts=True):
        self.browser = browser
        self.target = browser.send('Target.createTarget', url='about:blank')['targetId']
        self.session = browser.send('Target.attachToTarget', targetId=self.target, flatten=True)['sessionId']
        for domain in ('Page', 'Runtime', 'Log', 'Network'):
            self.send(f'{domain}.enable')
        self.resize(width, height)
        self.send('Emulation.setEmulatedMedia', features=[{'name': 'prefers-color-scheme', 'value': 'dark' if dark else 'light'}])
        if not scripts:
            self.send('Emulation.setScriptExecutionDisabled', value=True)

    def send(self, method, **params):
        return self.browser.send(method, self.session, **params)

    def close(self):
        self.browser.send('Target.closeTarget', targetId=self.target)

    def resize(self, width, height=800):
        self.send('Emulation.setDeviceMetricsOverride', width=width, height=height, deviceScaleFactor=1, mobile=False)

    def events(self, *methods):
        return [event for event in self.browser.events if event.get('sessionId') == self.session and event['method'] in methods]

    def complaints(self):
        """what the browser complained of, in words"""
        return [json.dumps(event['params'])[:300] for event in self.events(*COMPLAINTS)]

    def requests(self):
        """the addresses that were asked for, but for that of the page itself"""
        sent = (event['params']['request']['url'] for event in self.events('Network.requestWillBeSent'))
        return [url for url in sent if url.split('#')[0] != self.url]

    def open(self, path, address=''):
        """opens a file, and waits until it is loaded"""
        self.url = 'file://' + os.path.abspath(path)
        before = len(self.events('Page.loadEventFired'))
        self.send('Page.navigate', url=self.url + address)
        self.browser.wait(lambda: len(self.events('Page.loadEventFired')) > before or None, f'open {path}')

    def evaluate(self, script):
        """the value of an expression, which may be a promise"""
        found = self.send('Runtime.evaluate', expression=script, returnByValue=True, awaitPromise=True)
        if 'exceptionDetails' in found:
            raise RuntimeError(json.dumps(found['exceptionDetails'])[:500])
        return found['result'].get('value')

    def settle(self):
        """waits until what was done is drawn"""
        self.evaluate('new Promise((done) => requestAnimationFrame(() => requestAnimationFrame(done)))')

    def press(self, key, modifiers=0, text=None):
        code = KEYS.get(key, ord(key[0].upper()))
        typed = text if text is not None else '\r' if key == 'Enter' else key if len(key) == 1 else ''
        which = {'key': key, 'windowsVirtualKeyCode': code, 'modifiers': modifiers}
        text = {'text': typed} if typed else {}
        self.send('Input.dispatchKeyEvent', type='keyDown' if typed else 'rawKeyDown', **which, **text)
        self.send('Input.dispatchKeyEvent', type='keyUp', **which)

    def mouse(self, kind, x, y, count=1):
        held = 0 if kind == 'mouseReleased' else 1
        self.send('Input.dispatchMouseEvent', type=kind, x=x, y=y, button='left', buttons=held, clickCount=count)

    def hover(self, x, y):
        self.send('Input.dispatchMouseEvent', type='mouseMoved', x=x, y=y)

    def click(self, selector, count=1):
        """clicks the middle of an element"""
        x, y = self.middle(selector)
        for at in range(1, count + 1):
            self.mouse('mousePressed', x, y, at)
            self.mouse('mouseReleased', x, y, at)
        self.settle()

    def middle(self, selector):
        box = self.box(selector)
        return box['x'] + box['width'] / 2, box['y'] + box['height'] / 2

    def box(self, selector):
        """where an element is in the window, into which it is brought"""
        return self.evaluate(f'''(() => {{
            const element = document.querySelector({json.dumps(selector)});
            element.scrollIntoView({{ block: 'center', behavior: 'instant' }});
            const {{ x, y, width, height }} = element.getBoundingClientRect();
            return {{ x, y, width, height }};
        }})()''')

    def drag(self, x0, y0, x1, y1):
        self.mouse('mousePressed', x0, y0)
        for part in (0.3, 0.6, 1):
            x, y = x0 + (x1 - x0) * part, y0 + (y1 - y0) * part
            self.send('Input.dispatchMouseEvent', type='mouseMoved', x=x, y=y, button='left', buttons=1)
        self.mouse('mouseReleased', x1, y1)
        self.settle()

    def picture(self, path, whole=False):
        """writes what is in sight, or the whole page, as a PNG"""
        octets = base64.b64decode(self.send('Page.captureScreenshot', format='png', captureBeyondViewport=whole)['data'])
        with open(path, 'wb') as f:
            f.write(octets)

    def print(self):
        """the page on paper, as a PDF"""
        return base64.b64decode(self.send('Page.printToPDF', printBackground=False)['data'])
