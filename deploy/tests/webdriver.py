"""A browser that is driven over the WebDriver protocol, with nothing but Python's own library."""

import json
import subprocess
import time
import urllib.error
import urllib.request

ELEMENT = 'element-6066-11e4-a52e-4f735466cecf'


class Browser:
    """A headless Chromium of its own, over a driver of its own at this port."""

    def __init__(self, port, profile, width=1280, height=900, language='en-GB'):
        self.root = f'http://127.0.0.1:{port}'
        self.driver = subprocess.Popen(['chromedriver', f'--port={port}'], stdout=subprocess.DEVNULL, stderr=subprocess.DEVNULL)
        arguments = ['--headless=new', '--no-sandbox', '--disable-gpu', '--disable-dev-shm-usage', '--no-first-run',
                     '--disable-background-networking', '--disable-component-update', f'--user-data-dir={profile}',
                     f'--window-size={width},{height}', f'--accept-lang={language}']
        wanted = {'acceptInsecureCerts': True, 'pageLoadStrategy': 'normal', 'goog:chromeOptions': {'args': arguments},
                  'goog:loggingPrefs': {'browser': 'ALL'}}
        for _ in range(100):
            try:
                self.call('GET', '/status')
                break
            except OSError:
                time.sleep(0.1)
        session = self.call('POST', '/session', {'capabilities': {'alwaysMatch': wanted}})
        self.root += '/session/' + session['sessionId']

    def call(self, method, path, body=None):
        data = None if body is None else json.dumps(body).encode()
        request = urllib.request.Request(self.root + path, data, {'Content-Type': 'application/json'}, method=method)
        try:
            with urllib.request.urlopen(request, timeout=240) as reply:
                return json.load(reply)['value']
        except urllib.error.HTTPError as error:
            raise RuntimeError(json.load(error)['value']['message'].split('\n')[0]) from None

    def open(self, url):
        self.call('POST', '/url', {'url': url})

    def run(self, script, *arguments):
        """What this body of a JavaScript function returns."""
        return self.call('POST', '/execute/sync', {'script': script, 'args': list(arguments)})

    def find(self, selector):
        return self.call('POST', '/element', {'using': 'css selector', 'value': selector})[ELEMENT]

    def click(self, selector):
        for _ in range(5):
            try:
                self.run('document.querySelector(arguments[0])?.scrollIntoView({ block: "center" })', selector)
                return self.call('POST', f'/element/{self.find(selector)}/click', {})
            except RuntimeError as error:           # the page made the element anew in between
                if 'stale' not in str(error):
                    raise
        raise RuntimeError(f'{selector} is made anew again and again')

    def write(self, selector, text):
        element = self.find(selector)
        self.call('POST', f'/element/{element}/clear', {})
        self.call('POST', f'/element/{element}/value', {'text': text})

    def keys(self, text):
        """These keys, one after the other, to whatever has the focus."""
        actions = [step for key in text for step in ({'type': 'keyDown', 'value': key}, {'type': 'keyUp', 'value': key})]
        self.call('POST', '/actions', {'actions': [{'type': 'key', 'id': 'keys', 'actions': actions}]})

    def text(self, selector):
        """What can be read at this place; nothing where it isn't shown."""
        return self.run('const e = document.querySelector(arguments[0]); return e && e.checkVisibility() ? e.innerText : ""', selector)

    def resize(self, width, height):
        self.call('POST', '/window/rect', {'width': width, 'height': height})

    def picture(self):
        """The window as a PNG in base64."""
        return self.call('GET', '/screenshot')

    def printed(self):
        """The page as it would be printed, a PDF in base64."""
        return self.call('POST', '/print', {})

    def devtools(self, command, **words):
        """What a command of Chromium's own protocol gives."""
        return self.call('POST', '/goog/cdp/execute', {'cmd': command, 'params': words})

    def log(self):
        """What the page, or the browser about it, wrote to the console since this was asked last."""
        return [each['message'] for each in self.call('POST', '/se/log', {'type': 'browser'})]

    def end(self):
        try:
            self.call('DELETE', '')
        except (OSError, RuntimeError):
            pass
        self.driver.terminate()
        self.driver.wait()
