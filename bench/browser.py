"""A page in headless Chromium, driven over the DevTools protocol on two pipes. The network is refused."""
import base64
import fcntl
import json
import os
import select
import shutil
import subprocess
import tempfile
import time

FLAGS = ['--headless=new', '--no-sandbox', '--disable-gpu', '--disable-dev-shm-usage', '--remote-debugging-pipe',
         '--no-first-run', '--proxy-server=127.0.0.1:9', '--host-resolver-rules=MAP * ~NOTFOUND',
         '--force-device-scale-factor=1', 'about:blank']
PATIENCE = 60  # seconds


class Browser:
    """One tab of a browser. It notes what the console tells as errors, and which addresses are asked for."""

    def __init__(self, program='chromium', width=1280, height=900):
        self.folder = tempfile.mkdtemp()
        read, to_child = os.pipe()
        from_child, write = os.pipe()
        ends = [fcntl.fcntl(end, fcntl.F_DUPFD, 20) for end in (read, write)]
        command = f'exec "$@" 3<&{ends[0]} 4>&{ends[1]}'
        own = [f'--user-data-dir={self.folder}', f'--window-size={width},{height}']
        self.child = subprocess.Popen(['bash', '-c', command, 'bash', program] + own + FLAGS, pass_fds=ends,
                                      stdout=subprocess.DEVNULL, stderr=subprocess.DEVNULL)
        for end in ends + [read, write]:
            os.close(end)
        self.pipe, self.answers, self.rest, self.last, self.session = to_child, from_child, b'', 0, None
        self.errors, self.requests = [], []
        target = self.call('Target.createTarget', url='about:blank')['targetId']
        self.session = self.call('Target.attachToTarget', targetId=target, flatten=True)['sessionId']
        for domain in ('Page', 'Runtime', 'Network', 'Log'):
            self.call(f'{domain}.enable')
        self.call('Emulation.setDeviceMetricsOverride', width=width, height=height, deviceScaleFactor=1, mobile=False)

    def close(self):
        """Ends the browser and removes its folder, to which its processes may write for a moment longer."""
        self.child.terminate()
        self.child.wait()
        os.close(self.pipe)
        os.close(self.answers)
        until = time.time() + PATIENCE
        while os.path.exists(self.folder) and time.time() < until:
            shutil.rmtree(self.folder, ignore_errors=True)
            time.sleep(0.01)

    def next_message(self, until):
        while b'\0' not in self.rest:
            if not select.select([self.answers], [], [], max(0, until - time.time()))[0]:
                raise TimeoutError('the browser does not answer')
            more = os.read(self.answers, 1 << 16)
            if not more:
                raise OSError('the browser has ended')
            self.rest += more
        message, self.rest = self.rest.split(b'\0', 1)
        return json.loads(message)

    def note(self, message):
        """Notes an event: an error of the page, or a request."""
        method, told = message.get('method'), message.get('params', {})
        if method == 'Runtime.exceptionThrown':
            details = told['exceptionDetails']
            self.errors.append(details.get('exception', {}).get('description') or details['text'])
        elif method == 'Runtime.consoleAPICalled' and told['type'] in ('error', 'warning', 'assert'):
            self.errors.append(str([one.get('value') for one in told['args']]))
        elif method == 'Log.entryAdded' and told['entry']['level'] in ('error', 'warning'):
            self.errors.append(told['entry']['text'])
        elif method == 'Network.requestWillBeSent':
            self.requests.append(told['request']['url'])

    def call(self, method, **words):
        """Asks the browser, and gives its answer."""
        self.last += 1
        message = {'id': self.last, 'method': method, 'params': words}
        if self.session:
            message['sessionId'] = self.session
        os.write(self.pipe, json.dumps(message).encode() + b'\0')
        until = time.time() + PATIENCE
        while True:
            answer = self.next_message(until)
            if answer.get('id') == self.last:
                if 'error' in answer:
                    raise RuntimeError(f'{method}: {answer["error"]}')
                return answer['result']
            self.note(answer)

    def value(self, script):
        """The value of an expression on the page."""
        told = self.call('Runtime.evaluate', expression=script, returnByValue=True, awaitPromise=True)
        if 'exceptionDetails' in told:
            raise RuntimeError(told['exceptionDetails'].get('exception', {}).get('description', script))
        return told['result'].get('value')

    def open(self, path):
        """Opens a file and waits until its script has drawn it; gives the seconds that it took."""
        begun, self.errors, self.requests = time.time(), [], []
        self.call('Page.navigate', url='file://' + os.path.realpath(path))
        while self.value('document.readyState + (document.documentElement?.dataset.ready || "")') != 'completeyes':
            if time.time() - begun > PATIENCE or self.errors:
                raise RuntimeError(f'{path} does not open: {self.errors}')
            time.sleep(0.02)
        return time.time() - begun

    def settle(self):
        """Waits until what was changed is drawn."""
        self.value('''new Promise(done => requestAnimationFrame(() => requestAnimationFrame(() =>
            requestAnimationFrame(done))))''')

    def middle(self, selector):
        """Where the middle of an element is, after it was brought into sight."""
        found = self.value(f'''(() => {{ const one = document.querySelector({json.dumps(selector)});
            one.scrollIntoView({{block: 'center', inline: 'center', behavior: 'instant'}});
            const box = one.getBoundingClientRect();
            return [box.left + box.width / 2, box.top + box.height / 2]; }})()''')
        self.settle()
        return found

    def click(self, selector):
        x, y = self.middle(selector)
        for kind in ('mousePressed', 'mouseReleased'):
            self.call('Input.dispatchMouseEvent', type=kind, x=x, y=y, button='left', clickCount=1)
        self.settle()

    def wheel(self, x, y, by):
        self.call('Input.dispatchMouseEvent', type='mouseWheel', x=x, y=y, deltaX=0, deltaY=by)
        self.settle()

    def move(self, x, y):
        self.call('Input.dispatchMouseEvent', type='mouseMoved', x=x, y=y)
        self.settle()

    def press(self, key, text=None):
        code = {'Enter': 13, 'Tab': 9, 'Escape': 27, 'Home': 36}.get(key, 0)
        words = {'key': key, 'code': key, 'windowsVirtualKeyCode': code}
        self.call('Input.dispatchKeyEvent', type='keyDown', **words, **({'text': text} if text else {}))
        self.call('Input.dispatchKeyEvent', type='keyUp', **words)
        self.settle()

    def look(self, scheme=None, medium=None):
        """Has the page shown dark or light, on a screen or in print."""
        features = [{'name': 'prefers-color-scheme', 'value': scheme}] if scheme else []
        self.call('Emulation.setEmulatedMedia', media=medium or '', features=features)
        self.settle()

    def picture(self, path, first='body', last='body'):
        """Writes the page from the top of an element to the bottom of another as PNG, at most 6,000 pixels high."""
        top, bottom = self.value(f'''[document.querySelector({json.dumps(first)}).getBoundingClientRect().top + scrollY,
            document.querySelector({json.dumps(last)}).getBoundingClientRect().bottom + scrollY]''')
        clip = {'x': 0, 'y': max(0, top - 12), 'width': 1265, 'height': min(6000, bottom - top + 24), 'scale': 1}
        answer = self.call('Page.captureScreenshot', format='png', clip=clip, captureBeyondViewport=True)
        with open(path, 'wb') as file:
            file.write(base64.b64decode(answer['data']))
