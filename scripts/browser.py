"""Pages of a headless Chromium, by the WebDriver protocol (https://www.w3.org/TR/webdriver2/) of chromedriver."""
import base64
import contextlib
import http.client
import json
import os
import shutil
import subprocess
import time

from shared import free_port, wait_for

PATIENCE = 30    # for what a page or a program should do, in seconds


# For what is looked at on the page.
HELPERS = """
const all = selector => [...document.querySelectorAll(selector)];
const one = selector => document.querySelector(selector);
const texts = selector => all(selector).map(it => it.textContent);
const text = selector => one(selector)?.textContent;
const row = name => all('.row').find(it => it.querySelector('.label').textContent === name);
const cell = name => row(name)?.querySelector('.value');
const value = name => cell(name) && Array.from(cell(name).children, it => it.textContent).join(' ');
const link = (selector, name) => all(selector).find(it => it.textContent.startsWith(name));
const active = () => text('.row[aria-selected=true] .label');
const at = element => {
    const { left, top, width, height } = element.getBoundingClientRect();
    return element.contains(document.elementFromPoint(left + width / 2, top + height / 2));
};
// The contrast of the text of an element to the paper, as WCAG reckons it.
const contrast = selector => {
    const linear = part => part <= .03928 ? part / 12.92 : ((part + .055) / 1.055) ** 2.4;
    const light = colour => colour.match(/\\d+/g).slice(0, 3)
        .reduce((sum, part, n) => sum + linear(part / 255) * [.2126, .7152, .0722][n], 0);
    const ink = light(getComputedStyle(one(selector)).color);
    const paper = light(getComputedStyle(document.body).backgroundColor);
    return (Math.max(ink, paper) + .05) / (Math.min(ink, paper) + .05);
};
const choose = (select, option) => { select.value = option; select.dispatchEvent(new Event('change')); };
"""

ELEMENT = 'element-6066-11e4-a52e-4f735466cecf'
KEYS = {'Enter': '\ue007', 'Escape': '\ue00c', 'Tab': '\ue004', 'Home': '\ue011', 'End': '\ue010', 'Left': '\ue012',
        'Up': '\ue013', 'Right': '\ue014', 'Down': '\ue015', 'Backspace': '\ue003', 'PageDown': '\ue00f'}
OPTIONS = ['--headless=new', '--no-sandbox', '--disable-dev-shm-usage', '--hide-scrollbars', '--lang=en',
           '--disable-background-networking', '--disable-component-update', '--no-first-run']


class Stale(RuntimeError):
    """The element isn't on the page any more."""


class Driver:
    """chromedriver, which starts a browser for each page."""

    def __init__(self, folder):
        self.port = free_port()
        log = os.path.join(folder, 'chromedriver.log')
        self.process = subprocess.Popen(['chromedriver', f'--port={self.port}', f'--log-path={log}'],
                                        stdin=subprocess.DEVNULL, stdout=subprocess.DEVNULL)
        wait_for(self.port, self.process, PATIENCE)


class Page:
    """One window of a browser of its own."""

    def __init__(self, driver, top):
        self.driver, self.top, self.session = driver, top, ''
        options = {'args': OPTIONS, 'binary': shutil.which('chromium')}
        wanted = {'browserName': 'chrome', 'goog:chromeOptions': options, 'goog:loggingPrefs': {'browser': 'ALL'}}
        made = self.ask('POST', '', {'capabilities': {'alwaysMatch': wanted}})
        self.session = '/' + made['sessionId']
        self.size(1280, 800)

    def ask(self, method, path, value=None):
        connection = http.client.HTTPConnection('127.0.0.1', self.driver.port, timeout=60)
        body = None if value is None else json.dumps(value)
        connection.request(method, f'/session{self.session}{path}', body, {'Content-Type': 'application/json'})
        answer = json.loads(connection.getresponse().read())['value']
        connection.close()
        if isinstance(answer, dict) and 'error' in answer:
            fault = Stale if answer['error'] == 'stale element reference' else RuntimeError
            raise fault(f'{method} {path}: {answer["message"]}')
        return answer

    def close(self):
        self.ask('DELETE', '')

    def size(self, width, height, scale=1):
        self.browser('Emulation.setDeviceMetricsOverride',
                     {'width': width, 'height': height, 'deviceScaleFactor': scale, 'mobile': False})

    def browser(self, command, params):
        return self.ask('POST', '/goog/cdp/execute', {'cmd': command, 'params': params})

    def go(self, address):
        self.ask('POST', '/url', {'url': 'about:blank'})
        self.ask('POST', '/url', {'url': f'{self.top}/{address}'})

    def run(self, script):
        """The value of an expression, in which the helpers are at hand."""
        return self.ask('POST', '/execute/sync', {'script': f'{HELPERS}; return {script}', 'args': []})

    def wait(self, script, is_wanted=bool):
        """The value of an expression once it is a wanted one, else the last one. One that fails has none."""
        begun = time.monotonic()
        while True:
            found = self.run(f'(() => {{ try {{ return {script} }} catch {{ return null }} }})()')
            if is_wanted(found) or time.monotonic() - begun > PATIENCE:
                return found
            time.sleep(0.05)

    def click(self, script):
        """Clicks on an element once it is there, and again where another one has just taken its place."""
        for _ in range(10):
            element = self.wait(script)
            if not element:
                raise RuntimeError(f'not on the page: {script}')
            with contextlib.suppress(Stale):
                self.ask('POST', f'/element/{element[ELEMENT]}/click', {})
                return
        raise RuntimeError(f'never stays on the page: {script}')

    def press(self, *keys):
        """Presses keys by their names, and those of texts."""
        strokes = [stroke for key in keys for stroke in ([KEYS[key]] if key in KEYS else key)]
        actions = [{'type': kind, 'value': stroke} for stroke in strokes for kind in ('keyDown', 'keyUp')]
        self.ask('POST', '/actions', {'actions': [{'type': 'key', 'id': 'keyboard', 'actions': actions}]})

    def type(self, text):
        """Types over what is selected or in the field that has the focus."""
        self.run('document.activeElement.select && document.activeElement.select()')
        self.press(text or 'Backspace')

    def picture(self, path):
        with open(path, 'wb') as file:
            file.write(base64.b64decode(self.ask('GET', '/screenshot')))
