"""What the tests of the page have in common: a browser at the page, and a line for each thing that was looked at."""

import base64
import json
import os
import subprocess
import threading
import time
import urllib.request

from webdriver import Browser

DAY = '2095-12-19'      # a Monday; days of tests lie ahead, since the page asks about past ones


def check(name, held, seen=''):
    print(f'ok {name}' if held else f'FAILED: {name}: {seen!r}', flush=True)


def minutes(time_of_day):
    hour, minute = time_of_day.split(':')
    return 60 * int(hour) + int(minute)


def slot(room, time_of_day, day=DAY):
    return f'.slot[data-room="{room}"][data-day="{day}"][data-start="{minutes(time_of_day)}"]'


def booking(room, time_of_day, day=DAY):
    return f'.booking[data-room="{room}"][data-day="{day}"][data-start="{minutes(time_of_day)}"]'


class Page(Browser):
    """A browser at the proxy's address `url`, which has a user and a password."""

    def __init__(self, port, profile, url, pictures, **size):
        super().__init__(port, profile, **size)
        self.url, self.pictures = url, pictures
        self.bare = 'https://' + url.split('@')[1]

    def sign_in(self):
        self.open(f'{self.url}/submit')     # asks for the password of those who book, which the address has
        self.open(f'{self.url}/')           # and for that of those who read

    def waits(self, held, patience=40):
        """Whether this holds before long."""
        end = time.time() + patience
        while not held():
            if time.time() > end:
                return False
            time.sleep(0.1)
        return True

    def until(self, name, selector, words, patience=40):
        """The text at this place has these words, before long."""
        held = self.waits(lambda: words in (self.text(selector) or ''), patience)
        check(name, held, '' if held else (self.text(selector) or '')[:300])

    def gone(self, name, selector, words, patience=40):
        """The text at this place has these words no longer, before long."""
        check(name, self.waits(lambda: words not in (self.text(selector) or ''), patience), words)

    def there(self, name, selector, patience=40):
        check(name, self.waits(lambda: self.has(selector), patience), selector)

    def has(self, selector):
        return self.run('return document.querySelector(arguments[0]) !== null', selector)

    def value(self, selector):
        return self.run('return document.querySelector(arguments[0]).value', selector)

    def attribute(self, selector, name):
        return self.run('return document.querySelector(arguments[0])?.getAttribute(arguments[1])', selector, name)

    def set(self, selector, value):
        """Puts a value into a field as a hand would, in one step."""
        self.run('const field = document.querySelector(arguments[0]); field.value = arguments[1]; field.dispatchEvent(new Event("change"))',
                 selector, value)

    def wish(self, room, time_of_day, title, day=DAY):
        for field, value in (('#room', room), ('#wish-day', day), ('#wish-start', time_of_day)):
            self.set(field, value)
        self.write('#title', title)

    def leave(self, address):
        """Goes to another address, whatever the page asks about that."""
        self.devtools('Page.navigate', url=address)
        for _ in range(50):
            try:
                self.call('POST', '/alert/accept', {})
            except RuntimeError:
                pass
            time.sleep(0.1)
            if self.call('GET', '/url').startswith(address):
                return

    def look(self):
        """A round of asking at once, as when the window is shown again."""
        self.run('document.dispatchEvent(new Event("visibilitychange"))')

    def picture_of(self, name):
        with open(os.path.join(self.pictures, name + '.png'), 'wb') as out:
            out.write(base64.b64decode(self.picture()))


class Office:
    """A replica's database, and the process that serves it."""

    def __init__(self, program, database, port):
        self.program, self.database, self.port, self.process = program, database, int(port), None

    def rooms(self, command, *words):
        return subprocess.run([self.program, command, self.database, *words], stdout=subprocess.PIPE, stdin=subprocess.DEVNULL, text=True).stdout

    def asked(self, path):
        """What it answers to this path while it is served."""
        with urllib.request.urlopen(f'http://127.0.0.1:{self.port}{path}', timeout=60) as reply:
            return reply.read().decode()

    def serve(self):
        self.process = subprocess.Popen([self.program, 'serve', self.database, str(self.port), '100000'],
                                        stdout=subprocess.PIPE, stdin=subprocess.DEVNULL, text=True)
        line = self.process.stdout.readline()
        if not line.startswith('serving'):
            check(f'{self.database} is served', False, line)
        threading.Thread(target=self.process.stdout.read, daemon=True).start()

    def stop(self):
        if self.process:
            self.process.kill()
            self.process.wait()
            self.process = None

    def between(self, act):
        """Does something on the database while nothing serves it."""
        self.stop()
        act()
        self.serve()


def write_rooms(path, names, **words):
    """A rooms.json with these names and labels."""
    rooms = [{'name': name, 'label': label} for name, label in names.items()]
    with open(path, 'w') as out:
        json.dump({'office': 'West office', 'from': '08:00', 'to': '19:00', **words, 'rooms': rooms}, out)
