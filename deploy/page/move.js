// The form in which a booking is moved, lengthened, shortened or renamed. It says what is in the way and what may be lost before anything is sent.
import { byId, el, buttonOf, FIRST, hoursText, isDay, isPlain, LAST, minuteOf, plainOf, put, renew, dayText } from './texts.js';
import { Fault, labelOf, office, page } from './office.js';
import { isMailWell, mailField } from './mail.js';
import { askMoves } from './movelist.js';
import { inTheWay, isSame, lossWords, move } from './moving.js';
import { freeNear } from './planlist.js';
import { report } from './states.js';
import { say } from './words.js';
import { LONGEST } from './wish.js';

/** The booking whose form is open, what is in the way of what is filled in, and what is being done or came of it. */
let old = null, way = '', free = [], isAtWork = false, result = null, asked = 0;

const stopOf = ({ start, length }) => minuteOf(start) + length;

const hoursOf = slot => hoursText(minuteOf(slot.start), stopOf(slot));

const inputOf = (id, words, properties) => el('label', {}, words, ' ', el('input', { id: 'move-' + id, ...properties }));

/** What can be changed, as it is. */
function fieldsOf() {
  const options = office.rooms.map(({ name }) => el('option', { value: name, selected: name === old.room }, labelOf(name)));
  return el('p', { className: 'fields' }, el('label', {}, say('move.room'), ' ', el('select', { id: 'move-room' }, ...options)),
    inputOf('day', say('move.day'), { type: 'date', value: old.day, min: FIRST, max: LAST }), inputOf('start', say('move.start'), { type: 'time', value: old.start }),
    inputOf('length', say('move.length'), { inputMode: 'numeric', size: 5, value: String(old.length) }), inputOf('name', say('move.title'), { size: 30, value: old.title }));
}

function formOf() {
  const words = say('move.booking', { room: labelOf(old.room), day: dayText(old.day), hours: hoursOf(old), id: old.id });
  const form = el('form', { noValidate: true, autocomplete: 'off' }, el('h2', { id: 'move-title' }, say('move.head', { title: old.title })), el('p', { className: 'hint' }, words),
    fieldsOf(), el('p', { id: 'move-loss', className: 'hint' }), el('p', { id: 'move-way', className: 'error', role: 'status' }),
    el('p', { id: 'move-free', className: 'buttons' }), mailField('move-mail', say('index.mailHint')), el('p', { id: 'move-outcome', role: 'status' }),
    el('p', { className: 'buttons' }, el('button', { type: 'submit', id: 'move-send', className: 'main' }, say('move.send')),
      buttonOf(say('all.close'), () => byId('move').close(), { id: 'move-close' })));
  form.addEventListener('submit', send);
  form.addEventListener('change', lookAround);
  form.addEventListener('input', show);
  return form;
}

export function openMove(booking) {
  [old, way, free, isAtWork, result] = [booking, '', [], false, null];
  byId('move').replaceChildren(formOf());
  byId('move').oncancel = event => { if (isAtWork) event.preventDefault(); };
  byId('move').showModal();
  show();
  byId('move-start').focus();
}

/** What is filled in, or what is wrong with it. */
function read() {
  const value = id => byId('move-' + id).value.trim(), length = value('length'), title = value('name');
  const wish = { room: byId('move-room').value, day: value('day'), start: value('start'), length: Number(length), title };
  if (!isDay(wish.day) || !wish.start) return { trouble: say('move.noStart') };
  if (!/^[0-9]{1,4}$/.test(length) || wish.length < 1) return { trouble: say('move.noLength') };
  if (stopOf(wish) > 1440) return { trouble: say('all.midnight') };
  if (!title) return { trouble: say('move.noTitle') };
  if (!isPlain(title)) return { trouble: say('move.plain', { title: plainOf(title) }) };
  return title.length > LONGEST ? { trouble: say('move.longTitle', { most: LONGEST }) } : { wish };
}

/** Whenever something else is filled in: what is in its way, and what is free near it. */
async function lookAround() {
  const { wish } = read(), number = asked += 1;
  [way, free] = ['', []];
  if (!wish || isSame(old, wish)) return show();
  try {
    const words = await inTheWay(old, wish), slots = words ? await freeNear(wish) : [];
    if (number === asked) [way, free] = [words, slots];
  } catch (fault) {
    if (!(fault instanceof Fault)) throw fault;
    way = say('move.unread', { cause: fault.message });
  }
  if (byId('move').open) show();
}

function show() {
  const { wish, trouble } = read(), isNothing = Boolean(wish) && isSame(old, wish);
  put({ 'move-way': trouble || way, 'move-loss': wish && !isNothing && !result ? lossWords(old, wish) : '' });
  renew(byId('move-free'), ...free.map(slot => buttonOf(say('move.slot', { room: labelOf(slot.room), hours: hoursOf({ ...slot, length: wish.length }) }), () => takeSlot(slot))));
  byId('move-send').disabled = isAtWork || Boolean(result) || !wish || isNothing;
  byId('move-close').disabled = isAtWork;
  for (const field of byId('move').querySelectorAll('input, select')) field.disabled = isAtWork || Boolean(result);
}

function takeSlot({ room, day, start }) {
  for (const [id, value] of Object.entries({ room, day, start })) byId('move-' + id).value = value;
  lookAround();
  byId('move-send').focus();
}

async function send(event) {
  event.preventDefault();
  const { wish } = read();
  if (!wish || isAtWork || result || isSame(old, wish) || !isMailWell('move-mail')) return;
  isAtWork = true;
  tell(say('move.looking'), true);
  await lookAround();
  if (!way) await carryOut(wish);
  else tell('', true);
  isAtWork = false;
  show();
  if (result) byId('move-close').focus();
}

async function carryOut(wish) {
  result = await move(old, wish, words => tell(words, true));
  tell(result.words, result.isGood);
  report(result.words, result.isGood);
  if (result.isGood) page.goTo({ day: wish.day, room: wish.room });
  await askMoves();
  page.round();
}

function tell(words, isGood) {
  put({ 'move-outcome': words });
  byId('move-outcome').className = words === '' ? '' : isGood ? 'good' : 'bad';
}
