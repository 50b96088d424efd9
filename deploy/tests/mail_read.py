#!/usr/bin/env python3
"""What mails say, as an independent reader of them reads it: mail_read.py [-t] FILE.. or an mbox (its name ends in `box`).

A line for each, in order of Date, receiver and place: the receiver, the subject, and of the part for calendars the method, the event's status, start
and sequence (`-` if there is none); with -t the text, too. What a mail program or a calendar program may not be given is reported as a fault.
"""
import email
import email.policy
import mailbox
import os
import re
import sys

try:
    import icalendar
except ImportError:
    icalendar = None

OF_THE_MTA = {'return-path', 'envelope-to', 'received', 'sender'}
HEADERS = {'from', 'to', 'subject', 'date', 'message-id', 'references', 'auto-submitted', 'mime-version', 'content-type', 'content-transfer-encoding'}


def faults(raw, message):
    head = raw.split(b'\n\n')[0]
    if re.search(rb'[^\x20-\x7e\n\t]', raw):
        yield 'bytes that are no plain letters'
    if max(map(len, raw.split(b'\n'))) > 78 + 200 or max(len(it) for it in raw.split(b'\n\n', 1)[1].split(b'\n')) > 76:
        yield 'a line that is too long'
    if any(len(it) > 76 for it in head.split(b'\n') if b'=?' in it) or re.search(rb'=\?[^ ]{72,}\?=', head):
        yield 'an encoded word that is too long'
    names = [it.lower() for it in message.keys() if it.lower() not in OF_THE_MTA]
    if sorted(set(names)) != sorted(names) or set(names) - HEADERS:
        yield f'headers {names}'
    for part in message.walk():
        for it in part.defects:
            yield f'defect {it!r}'


def event_of(message):
    """The method, status, start and sequence of the part for calendars."""
    parts = [it for it in message.walk() if it.get_content_type() == 'text/calendar']
    if not parts:
        return '-'
    part, text = parts[0], parts[0].get_content().replace('\r\n', '\n')
    if any(len(it.encode()) > 75 for it in text.split('\n')):
        return 'a line of more than 75 bytes'
    lines = dict(re.findall(r'^([A-Z-]+)(?:;[^:]*)?:(.*)$', text.replace('\n ', '').split('BEGIN:VEVENT')[1], re.M))
    method = re.search(r'^METHOD:(.*)$', text, re.M)[1]
    if method != part.get_param('method') or 'ORGANIZER' not in lines or 'UID' not in lines:
        return f'{method} {part["content-type"]} {lines}'
    if icalendar:
        event = icalendar.Calendar.from_ical(text.replace('\n', '\r\n')).walk('VEVENT')[0]
        if str(event['summary']) not in message['subject'] or str(event['uid']) != lines['UID']:
            return f'it is read as {event}'
    return f'{method} {lines["STATUS"]} {lines["DTSTART"]} {lines["SEQUENCE"]}'


def read(paths):
    for path in paths:
        if path.endswith('box'):
            yield from (bytes(it) for it in mailbox.mbox(path))
        else:
            with open(path, 'rb') as it:
                yield it.read()


def main(words):
    is_whole = words[:1] == ['-t']
    lines = []
    for place, raw in enumerate(read(words[1:] if is_whole else words)):
        message = email.message_from_bytes(raw, policy=email.policy.default)
        body = message.get_body(('plain',)).get_content()
        found = ''.join(f' FAULT: {it}' for it in faults(raw, message))
        lines.append((message['date'].datetime, message['to'], place, f'{message["to"]}: {message["subject"].strip()} | {event_of(message)}{found}' + ('\n' + body if is_whole else '')))
    for *_, line in sorted(lines):
        print(line)


main(sys.argv[1:])
