// The events of a calendar file (iCalendar, RFC 5545) as wishes: by the clocks of the rooms, those that recur day by day.
import { dayBeside, minuteOf } from './texts.js';
import { now, office } from './office.js';
import { daysOfRule } from './recurs.js';
import { say } from './words.js';
import { elsewhere, minutesOf, zoneNamed } from './zones.js';

const YEAR = 366;

/** The lines of a file with those that were folded made whole, each with the number of its first. */
function linesOf(text) {
  const lines = [];
  text.split(/\r\n|\n|\r/).forEach((words, place) => {
    if (/^[ \t]/.test(words) && lines.length) lines.at(-1).parts.push(words.slice(1));
    else lines.push({ line: place + 1, parts: [words] });
  });
  return lines.map(({ line, parts }) => ({ line, words: parts.join('') }));
}

/** A line in its parts: a name, parameters and a value. */
function partsOf(words) {
  const [, name, rest] = /^([A-Za-z0-9-]+)((?:;[^:";]+=(?:"[^"]*"|[^":;]*)(?:,(?:"[^"]*"|[^":;,]*))*)*):/.exec(words) || [];
  if (!name) return null;
  const parameters = Object.fromEntries([...(rest || '').matchAll(/;([^=;]+)=("[^"]*"|[^;]*)/g)].map(([, key, value]) => [key.toUpperCase(), value.replace(/^"|"$/g, '')]));
  return { name: name.toUpperCase(), parameters, value: words.slice(name.length + (rest || '').length + 1) };
}

const wordsOf = value => value.replace(/\\([nN;,\\])/g, (_, letter) => letter === 'n' || letter === 'N' ? ' ' : letter).replace(/\s+/g, ' ').trim();

/** The events, each with the properties that matter, and the number of its first line; what else is there is passed over by its name. */
function eventsOf(text) {
  const events = [], within = [];
  for (const { line, words } of linesOf(text)) {
    const part = partsOf(words), name = part && part.value.toUpperCase();
    if (!part) continue;
    if (part.name === 'BEGIN') {
      within.push(name);
      if (['VEVENT', 'VTODO', 'VJOURNAL'].includes(name)) events.push({ line, kind: name, lists: { EXDATE: [], RDATE: [] }, isWhole: false });
    } else if (part.name === 'END') {
      if (within.pop() !== name) return events;
      if (['VEVENT', 'VTODO', 'VJOURNAL'].includes(name)) events.at(-1).isWhole = true;
    } else if (within.at(-1) === 'VEVENT') {
      const event = events.at(-1);
      if (event.lists[part.name]) event.lists[part.name].push(part);
      else if (!event[part.name]) event[part.name] = part;
      else if (part.name === 'RRULE') event.hasMore = true;
    }
  }
  return events;
}

/** The moment that a property names, by its own clock and by that of the rooms; or what is wrong with it. */
function momentOf({ parameters, value }) {
  const [, year, month, day, hour, minute, second, isUtc] = /^(\d{4})(\d\d)(\d\d)(?:T(\d\d)(\d\d)(\d\d)(Z)?)?$/.exec(value) || [];
  if (!year) return { trouble: say('readical.noMoment', { value }) };
  const wall = year + '-' + month + '-' + day, isDay = Date.parse(wall + 'T00:00:00Z') && new Date(wall + 'T00:00:00Z').toISOString().startsWith(wall);
  if (!isDay || hour > 23 || minute > 59) return { trouble: say('readical.noMoment', { value }) };
  if (hour === undefined) return { trouble: say('readical.wholeDays') };
  if (second !== '00') return { trouble: say('readical.seconds') };
  const name = isUtc ? 'UTC' : parameters.TZID || '', zone = name ? zoneNamed(name) : office.zone;
  if (name && !zone) return { trouble: say('readical.zone', { name }) };
  return { day: wall, time: hour + ':' + minute, zone };
}

/** Minutes of a duration as PT1H30M. */
function durationOf(text) {
  const [, weeks, days, hours, minutes] = /^\+?P(?:(\d+)W|(?:(\d+)D)?(?:T(?:(\d+)H)?(?:(\d+)M)?(?:0+S)?)?)$/.exec(text) || [];
  const total = 7 * 1440 * (weeks || 0) + 1440 * (days || 0) + 60 * (hours || 0) + Number(minutes || 0);
  return total || -1;
}

/** How long an event is, by its own clock; or what is wrong with it. */
function lengthOf(event, begin) {
  if (event.DURATION) return durationOf(event.DURATION.value) > 0 ? { length: durationOf(event.DURATION.value) } : { trouble: say('readical.noDuration', { value: event.DURATION.value }) };
  if (!event.DTEND) return { trouble: say('readical.noEnd') };
  const end = momentOf(event.DTEND);
  if (end.trouble) return end;
  const at = elsewhere(end.day, end.time, end.zone, begin.zone);
  return { length: minutesOf(at.day, at.time) - minutesOf(begin.day, begin.time) };
}

/** A wish for an event that begins on this day by its own clock. */
function wishAt(event, begin, day, length, key) {
  const wish = { line: event.line, place: event.LOCATION ? wordsOf(event.LOCATION.value) : '', title: event.SUMMARY ? wordsOf(event.SUMMARY.value) : '', key };
  const at = elsewhere(day, begin.time, begin.zone, office.zone), whole = { ...wish, day: at.day, start: at.time, length };
  if (length < 1) return { ...whole, trouble: say('all.backwards') };
  return minuteOf(at.time) + length > 1440 ? { ...whole, trouble: say('readical.midnight') } : whole;
}

const nameOf = (uid, begin, day) => uid + '@' + day + 'T' + begin.time;

/** The wishes of an event: one, or one for each time that it recurs, but for those that are left out or that other events of the file stand for. */
function wishesOf(event, others) {
  const bad = trouble => [{ line: event.line, place: '', title: event.SUMMARY ? wordsOf(event.SUMMARY.value) : '', day: '', start: '', length: 0, key: '', trouble }];
  if (event.kind !== 'VEVENT') return bad(say('readical.notMeeting', { kind: event.kind }));
  if (!event.isWhole) return bad(say('readical.cutOff'));
  if (event.STATUS && event.STATUS.value.toUpperCase() === 'CANCELLED') return event['RECURRENCE-ID'] ? [] : bad(say('readical.cancelled'));
  if (!event.DTSTART) return bad(say('readical.noStart'));
  const begin = momentOf(event.DTSTART), uid = event.UID ? event.UID.value : '';
  if (begin.trouble) return bad(begin.trouble);
  const { length, trouble } = lengthOf(event, begin);
  if (trouble) return bad(trouble);
  if (event.hasMore || event.lists.RDATE.length) return bad(say('readical.rules'));
  if (!event.RRULE) return [wishAt(event, begin, begin.day, length, uid && (event['RECURRENCE-ID'] ? uid + '@' + event['RECURRENCE-ID'].value : uid))];
  const today = now().day, { days, isEndless, trouble: ofRule } = daysOfRule(event.RRULE.value, begin.day, dayBeside(today > begin.day ? today : begin.day, YEAR));
  if (ofRule) return bad(ofRule);
  const left = new Set([...event.lists.EXDATE, ...others].flatMap(part => part.value.split(',').map(value => keyOfMoment({ ...part, value }, begin))));
  return days.filter(day => !left.has(day + ' ' + begin.time))
    .map(day => ({ ...wishAt(event, begin, day, length, uid && nameOf(uid, begin, day)), ...isEndless ? { note: say('readical.endless') } : {} }));
}

/** A moment that is left out, by the clock of the event. */
function keyOfMoment(part, begin) {
  const moment = momentOf({ ...part, value: /T/.test(part.value) ? part.value : part.value + 'T' + begin.time.replace(':', '') + '00' });
  if (moment.trouble) return '';
  const at = elsewhere(moment.day, moment.time, moment.zone, begin.zone);
  return at.day + ' ' + at.time;
}

export function wishesOfIcal(text) {
  const events = eventsOf(text);
  if (!/^BEGIN:VCALENDAR/i.test(text.trimStart()) || !events.length) return { wishes: [], trouble: say('readical.none') };
  const overrides = new Map();
  for (const event of events) {
    const uid = event['RECURRENCE-ID'] && event.UID && event.UID.value;
    if (uid) overrides.set(uid, [...overrides.get(uid) || [], event['RECURRENCE-ID']]);
  }
  return { wishes: events.flatMap(event => wishesOf(event, event.UID && !event['RECURRENCE-ID'] ? overrides.get(event.UID.value) || [] : [])), trouble: '' };
}
