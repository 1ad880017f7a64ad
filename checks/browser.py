"""A page in Chromium without a window, driven over the DevTools protocol: what checks/pages looks with.

    with Browser(path_of_chromium) as browser:
        page = browser.open(path, width, height)
        page.run('1 + 1')
"""
import base64
import fcntl
import json
import os
import pathlib
import select
import shutil
import subprocess
import tempfile
import time

SECONDS = 300                                         # that a call may take, also where a machine has much to do
SWITCHES = ['--headless=new', '--no-sandbox', '--disable-gpu', '--remote-debugging-pipe', '--no-first-run',
            '--disable-background-networking', '--disable-component-update', '--hide-scrollbars', '--mute-audio']


def chromium():
    """The browser: as CHROMIUM says, or as it stands on the path; None where there is none."""
    if 'CHROMIUM' in os.environ:
        return shutil.which(os.environ['CHROMIUM'])
    return shutil.which('chromium') or shutil.which('chromium-browser') or shutil.which('google-chrome')


class Fault(Exception):
    """The browser or a script in the page refused."""


class Browser:
    """A browser of its own, with a profile that is gone when it ends."""

    def __init__(self, program):
        self.folder = tempfile.mkdtemp()
        ends = [fcntl.fcntl(end, fcntl.F_DUPFD, 20) for pair in (os.pipe(), os.pipe()) for end in pair]
        theirs_in, self.to, self.come, theirs_out = ends

        def join():
            os.dup2(theirs_in, 3)
            os.dup2(theirs_out, 4)
        self.process = subprocess.Popen([program, *SWITCHES, f'--user-data-dir={self.folder}', 'about:blank'],
                                        preexec_fn=join, pass_fds=(3, 4), stdout=subprocess.DEVNULL,
                                        stderr=subprocess.DEVNULL)
        os.close(theirs_in)
        os.close(theirs_out)
        self.number, self.rest, self.pages = 0, b'', {}

    def __enter__(self):
        return self

    def __exit__(self, *_):
        try:
            self.call('Browser.close')
        except (Fault, OSError):
            self.process.terminate()
        self.process.wait()
        shutil.rmtree(self.folder, ignore_errors=True)

    def message(self, until):
        """The next message of the browser."""
        while b'\0' not in self.rest:
            ready, _, _ = select.select([self.come], [], [], max(0, until - time.monotonic()))
            part = os.read(self.come, 1 << 20) if ready else b''
            if not part:
                raise Fault('the browser says nothing' if not ready else 'the browser has ended')
            self.rest += part
        text, self.rest = self.rest.split(b'\0', 1)
        return json.loads(text)

    def call(self, method, session=None, **words):
        """What a call of the protocol answers; events that come before are handed to their page."""
        self.number += 1
        text = {'id': self.number, 'method': method, 'params': words, **({'sessionId': session} if session else {})}
        os.write(self.to, json.dumps(text).encode() + b'\0')
        until = time.monotonic() + SECONDS
        while True:
            answer = self.message(until)
            if answer.get('id') == self.number:
                if 'error' in answer:
                    raise Fault(f'{method}: {answer["error"]["message"]}')
                return answer['result']
            if answer.get('sessionId') in self.pages:
                self.pages[answer['sessionId']].happened(answer)

    def open(self, path, width=1280, height=900, address=''):
        """A page of a file, as it is when it has been loaded."""
        target = self.call('Target.createTarget', url='about:blank')['targetId']
        session = self.call('Target.attachToTarget', targetId=target, flatten=True)['sessionId']
        page = Page(self, target, session)
        self.pages[session] = page
        for domain in ('Page', 'Runtime', 'Log'):
            page.call(f'{domain}.enable')
        page.size(width, height)
        page.call('Page.navigate', url=pathlib.Path(path).resolve().as_uri() + address)
        return page


class Page:
    """An open page. `faults` are what its console said, `dialogs` what it asked, and both should stay empty."""

    def __init__(self, browser, target, session):
        self.browser, self.target, self.session = browser, target, session
        self.faults, self.dialogs = [], []

    def call(self, method, **words):
        return self.browser.call(method, self.session, **words)

    def happened(self, event):
        words = event['params']
        if event['method'] == 'Runtime.exceptionThrown':
            details = words['exceptionDetails']
            self.faults.append(details.get('exception', {}).get('description', details['text']))
        elif event['method'] == 'Runtime.consoleAPICalled':
            self.faults.append(str([a.get('value') for a in words['args']]))
        elif event['method'] == 'Log.entryAdded' and words['entry']['level'] in ('error', 'warning'):
            self.faults.append(words['entry']['text'])
        elif event['method'] == 'Page.javascriptDialogOpening':
            self.dialogs.append(words['message'])

    def run(self, script):
        """What an expression is in the page."""
        answer = self.call('Runtime.evaluate', expression=script, returnByValue=True, awaitPromise=True,
                           userGesture=True)
        if 'exceptionDetails' in answer:
            details = answer['exceptionDetails']
            raise Fault(details.get('exception', {}).get('description', details['text']))
        return answer['result'].get('value')

    def wait(self, script, seconds=SECONDS):
        """Waits until an expression is true; answers how long that took."""
        begin = time.monotonic()
        while not self.run(script):
            if time.monotonic() - begin > seconds:
                raise Fault(f'never true: {script} {self.faults[:2]}')
            time.sleep(.02)
        return time.monotonic() - begin

    def size(self, width, height, dark=False, scale=1):
        self.call('Emulation.setDeviceMetricsOverride', width=width, height=height, deviceScaleFactor=scale,
                  mobile=False)
        theme = {'name': 'prefers-color-scheme', 'value': 'dark' if dark else 'light'}
        self.call('Emulation.setEmulatedMedia', features=[theme])

    def key(self, name, text='', code=0, shift=False):
        """Presses a key where the focus is."""
        words = {'key': name, 'windowsVirtualKeyCode': code, 'modifiers': 8 if shift else 0}
        self.call('Input.dispatchKeyEvent', type='keyDown', **words, **({'text': text} if text else {}))
        self.call('Input.dispatchKeyEvent', type='keyUp', **words)

    def type(self, text):
        self.call('Input.insertText', text=text)

    def mouse(self, kind, x, y, **more):
        self.call('Input.dispatchMouseEvent', type=kind, x=x, y=y, **more)

    def click(self, x, y):
        for kind in ('mousePressed', 'mouseReleased'):
            self.mouse(kind, x, y, button='left', clickCount=1)

    def drag(self, x1, y1, x2, y2):
        self.mouse('mousePressed', x1, y1, button='left', clickCount=1)
        for part in (1, 2, 3, 4):
            self.mouse('mouseMoved', x1 + (x2 - x1) * part / 4, y1 + (y2 - y1) * part / 4, button='left', buttons=1)
        self.mouse('mouseReleased', x2, y2, button='left', clickCount=1)

    def picture(self, path, whole=False):
        """The page as a PNG."""
        data = self.call('Page.captureScreenshot', format='png', captureBeyondViewport=whole)['data']
        pathlib.Path(path).write_bytes(base64.b64decode(data))

    def paper(self, path):
        """The page as it is printed, a PDF."""
        data = self.call('Page.printToPDF', printBackground=False, preferCSSPageSize=True, landscape=True)['data']
        pathlib.Path(path).write_bytes(base64.b64decode(data))

    def close(self):
        self.browser.call('Target.closeTarget', targetId=self.target)
