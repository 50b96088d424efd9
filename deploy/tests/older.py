"""An office that is served by a program from before there were cancels, which knows the first exchange text alone: older.py PORT.

It is replica 2 of primary 1, the plain form of tests/oracle/oracle.py, with the room oak; each POST to /book is an hour there, on the next day.
"""

import http.server
import os
import sys

os.environ['ROOMS_RULES'] = 'bookings'
sys.path.insert(0, os.path.join(os.path.dirname(os.path.abspath(__file__)), '..', '..', 'tests', 'oracle'))

import oracle
import wire

replica = oracle.Replica(2, 1)
replica.add_room('oak')


class Older(http.server.BaseHTTPRequestHandler):
    def do_GET(self):
        self.wfile.write(wire.text_reply(replica.position()))

    def do_POST(self):
        body = self.rfile.read(int(self.headers['Content-Length']))
        if self.path == '/book':
            day = f'1995-12-{replica.count(2) + 18}'
            text = replica.book('oak', '60', [(day, '14:00')], 'Of the older office')
        elif self.path == '/pull':
            text = wire.answer_position(replica, body, 64)
        else:
            text = wire.receive(replica, body)
        self.wfile.write(wire.text_reply(text))

    def log_message(self, *_):
        pass


http.server.HTTPServer(('127.0.0.1', int(sys.argv[1])), Older).serve_forever()
