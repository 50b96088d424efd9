// The request form: what is asked before a wish is sent, and what comes back.
import { byId, buttonOf, hoursText, isDay, isPlain, plainOf, dateText, dayText } from './texts.js';
import { Fault, ask, askMayBook, askSheet, labelOf, now, page } from './office.js';
import { calm, complain } from './fields.js';
import { addMine, dropMine, keepMine, replied } from './mine.js';
import { giveAddress, isMailWell } from './mail.js';
import { showOffers, standsFor, withdrawFirsts } from './offers.js';
import { sure } from './question.js';
import { report, stateOf } from './states.js';
import { choices, clashWords, isWished, lengthOf, LONGEST, sameSlot, slots, slotText, startOver, takeOffer } from './wish.js';
import { say } from './words.js';

const LENGTH = say('form.length');
export const REFUSALS = {
  1: ['day', say('form.day')],
  2: ['start', say('form.start')],
  3: ['length', LENGTH],
  4: ['room', say('form.room')],
  5: ['title', say('all.titleRule', { most: LONGEST })],
  6: ['choices', say('form.choices')],
  7: ['room', say('form.unknownRoom')],
  13: ['send', say('form.timeReached')],
  14: ['send', say('form.numbersUsed')],
};

let isSending = false;

/** What is asked for, or null where the form complained. */
function readForm() {
  const title = byId('title').value.trim(), length = lengthOf();
  byId('title').value = title;
  if (!length) return complain('length', LENGTH), null;
  if (!isPlain(title)) return offerPlain(plainOf(title)), null;
  if (title.length > LONGEST) return complain('title', REFUSALS[5][1] + ' ' + say('form.titleHas', { number: title.length })), null;
  if (!isMailWell()) return null;
  return { ...slots(), length, title };
}

/** Titles have plain letters alone: the same title in these is offered. */
function offerPlain(plain) {
  const words = say('form.plainOnly');
  if (!plain || plain.length > LONGEST) return complain('title', words);
  complain('title', words, ' ', buttonOf(say('all.takePlain', { title: plain }), () => { byId('title').value = plain; calm(); byId('title').focus(); }));
}

/** What would be asked of a desk before it is sent: a day that is past, and hours that are taken by what the sheets show. */
async function isMeant() {
  const all = choices(), [first] = all, clock = now();
  if (!isWished()) return true;
  const isPast = first.day < clock.day || (first.day === clock.day && first.to <= clock.minute);
  const when = { date: dateText(first.day), hours: hoursText(first.from, first.to) };
  if (isPast && !await sure(say('form.past', when), say('form.askAllTheSame'), say('all.no'))) return false;
  for (const day of new Set(all.map(choice => choice.day))) {
    if (isDay(day)) await askSheet(first.room, day).catch(unlessFault);
  }
  page.show();
  if (all.some(choice => clashWords(choice) === '')) return true;
  return sure(clashWords(first) + ' ' + say('form.reallyAsk'), say('form.askAllTheSame'), say('all.no'));
}

function unlessFault(fault) {
  if (!(fault instanceof Fault)) throw fault;
}

/** Asks what has to be asked, then sends the request once. */
export async function submit(event) {
  event.preventDefault();
  if (isSending) return;
  calm();
  report('');
  const asked = readForm();
  if (!asked) return;
  setSending(true);
  try {
    if (await isMeant()) await send(asked);
  } finally {
    setSending(false);
  }
  page.round();
}

function setSending(is) {
  isSending = is;
  byId('send').setAttribute('aria-disabled', is);
}

/** Until a reply comes the request stands among this browser's own as perhaps booked. */
async function send(asked) {
  const { room, title, day, start, length } = asked;
  const entry = { room, title, wish: { day, start }, length, sent: new Date().toISOString() + Math.random(), now: null };
  try {
    report(say('form.sending'), true);
    await askMayBook();
    report('');
    addMine(entry);
    const reply = await ask('/submit', JSON.stringify(asked));
    if (reply.status === 200) await accepted(entry, asked, reply.json); else refused(entry, reply);
  } catch (fault) {
    unlessFault(fault);
    if (entry.now) return;
    report('');
    if (fault.sent) return perhaps(fault.message);
    dropMine(entry);
    complain('send', say('form.notSent', { cause: fault.message }));
  } finally {
    replied();
  }
}

async function accepted(entry, asked, outcome) {
  entry.first = entry.now = outcome;
  keepMine();
  giveAddress(outcome);
  if (outcome.state !== 'booked') return noRoom(entry, asked);
  const place = (asked.alternatives || []).findIndex(slot => sameSlot(slot, outcome));
  const where = say('all.where', { room: labelOf(asked.room), day: dayText(outcome.day), hours: outcome.start + '–' + outcome.stop });
  const words = say('all.outcome', { state: stateOf(outcome)[0], where, id: outcome.id });
  startOver();
  report(place < 0 ? words : words + ' ' + say('form.alternative', { number: place + 1, slot: slotText(asked) }), true);
  await withdrawFirsts(asked.title);
}

/** The form stays as it was; what is free near the wish is offered, in this room and in the others. */
async function noRoom(entry, asked) {
  const isWaiting = entry.now.mark === 'T', words = say(asked.alternatives ? 'form.allTaken' : 'form.taken', { room: labelOf(asked.room), slot: slotText(asked) });
  report(isWaiting ? words + ' ' + say('form.mayGet') : words, false);
  if (isWaiting) standsFor(entry);
  byId('request').classList.add('refused');
  byId('wish-start').setAttribute('aria-invalid', 'true');
  await showOffers(byId('offers'), asked, takeOffer);
  byId('send').scrollIntoView({ block: 'center' });
}

function refused(entry, reply) {
  if (reply.status === 503) return perhaps(reply.json.name);
  dropMine(entry);
  const [field, words] = REFUSALS[reply.json.refusal] || ['send', say('form.refused', { cause: reply.json.name || say('form.unreadable') })];
  complain(field, words);
}

function perhaps(cause) {
  complain('send', say('form.perhaps', { cause }));
}
