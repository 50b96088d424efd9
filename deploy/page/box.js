// The box of a booking of a sheet, whoever made it.
import { byId, el, buttonOf, hoursText, minuteOf, timeOf, dayText } from './texts.js';
import { askOutcome, clock, labelOf, sinceOf, stateKey } from './office.js';
import { cancelButton, disarm, troubleOf } from './cancel.js';
import { openMove } from './move.js';
import { chipOf, stateOf } from './states.js';
import { pieces, say } from './words.js';

/** The booking whose box is open: its room, title, where it stood, and what the office said of it last. */
let box = null;

export function openBox(room, day, row) {
  const outcome = { id: row.id, mark: row.mark, state: 'booked', day, start: timeOf(row.start), stop: timeOf(row.stop) };
  box = { room, id: row.id, title: row.title, day, hours: hoursText(row.start, row.stop), now: outcome };
  showBox();
  byId('box').showModal();
}

export function closeBox() {
  box = null;
  disarm();
}

export async function askBox() {
  const open = box;
  if (open) open.now = await askOutcome(open.room, open.id);
}

export function showBox() {
  if (!box) return;
  const outcome = box.now, [word, kind, words] = stateOf(outcome), isBooked = Boolean(outcome) && outcome.state === 'booked';
  const day = isBooked ? outcome.day : box.day, hours = isBooked ? hoursText(minuteOf(outcome.start), minuteOf(outcome.stop)) : box.hours;
  const since = outcome ? ' ' + say('box.seen', { time: clock(sinceOf(stateKey(box.room, outcome))) }) : '';
  const held = document.activeElement && document.activeElement.dataset.box;
  byId('box').replaceChildren(el('h2', { id: 'box-title' }, box.title),
    el('p', {}, ...pieces('all.where', { room: el('b', {}, labelOf(box.room)), day: dayText(day), hours: el('b', { className: 'hours' }, hours) })),
    el('p', {}, chipOf(word, kind), ' ' + words), el('p', { className: 'hint' }, say('box.request', { id: box.id }) + since),
    el('p', { className: 'error', role: 'alert' }, outcome ? troubleOf(box) : ''),
    el('p', { className: 'buttons' }, isBooked ? cancelButton(box, say('box.cancel'), (text, act) => boxButton(text, 'cancel', act)) : null,
      isBooked ? boxButton(say('all.change'), 'move', () => change(outcome)) : null,
      boxButton(say('all.close'), 'close', () => byId('box').close(), { autofocus: true })));
  if (held) (byId('box').querySelector('[data-box=' + held + ']:not(:disabled)') || byId('box').querySelector('[data-box=close]')).focus();
}

/** The box gives way to the form in which its booking is moved, lengthened or renamed. */
function change({ id, day, start, stop }) {
  const { room, title } = box;
  byId('box').close();
  openMove({ room, id, title, day, start, length: minuteOf(stop) - minuteOf(start) });
}

function boxButton(words, name, act, properties) {
  const button = buttonOf(words, act, properties);
  button.dataset.box = name;
  return button;
}
