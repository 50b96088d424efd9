// How a booking is cancelled, and a request without a room withdrawn: both are a cancel of the request, which is pressed twice and sent once.
import { Fault, ask, askMayBook, page } from './office.js';
import { report } from './states.js';
import { say } from './words.js';

const REFUSALS = {
  7: say('cancel.unknownRoom'),
  9: say('cancel.unknownRequest'),
  13: say('cancel.timeReached'),
  14: say('cancel.numbersUsed'),
};
/** The sentences of both, by what they say. */
const CANCEL = { armed: 'cancel.reallyCancel', doing: 'cancel.cancelling', perhaps: 'cancel.perhapsCancelled', not: 'cancel.notCancelled', notSent: 'cancel.cancelNotSent' };
const WITHDRAW = { armed: 'cancel.reallyWithdraw', doing: 'cancel.withdrawing', perhaps: 'cancel.perhapsWithdrawn', not: 'cancel.notWithdrawn', notSent: 'cancel.withdrawNotSent' };

/** The request whose cancel waits for a second press, and the one whose cancel is under way; each by room and id. */
const cancel = { armed: '', sending: '', troubles: new Map() };

const keyOf = ({ room, now }) => room + ' ' + now.id;
const wordsOf = ({ now }) => now.state === 'logged' ? WITHDRAW : CANCEL;

/** What stood in the way of the last cancel of this booking. */
export const troubleOf = booking => cancel.troubles.get(keyOf(booking)) || '';

export function disarm() { cancel.armed = ''; }

/** The button, or the question whether it is meant: the first press asks, the second one sends. `make` makes a button of words and an act. */
export function cancelButton(booking, words, make) {
  const key = keyOf(booking), isArmed = cancel.armed === key, { armed, doing } = wordsOf(booking);
  const button = make(cancel.sending === key ? say(doing) : isArmed ? say(armed) : words, () => press(booking));
  button.classList.add('cancel');
  button.classList.toggle('armed', isArmed);
  button.disabled = cancel.sending !== '';
  return button;
}

async function press(booking) {
  const key = keyOf(booking);
  if (cancel.armed !== key) {
    cancel.armed = key;
    return page.showLists();
  }
  const words = await sendCancel(booking);
  if (words) report(words, true);
  page.round();
}

/** Sends the cancel once and gives what came of it, in words; nothing where there is trouble, which stands at the entry then. */
export async function sendCancel(booking) {
  const key = keyOf(booking);
  Object.assign(cancel, { armed: '', sending: key });
  cancel.troubles.delete(key);
  page.showLists();
  try {
    await askMayBook();
    return replied(booking, await ask('/cancel', JSON.stringify({ id: booking.now.id, room: booking.room })));
  } catch (fault) {
    if (!(fault instanceof Fault)) throw fault;
    const { perhaps, notSent } = wordsOf(booking);
    return trouble(booking, say(fault.sent ? perhaps : notSent, { cause: fault.message }));
  } finally {
    cancel.sending = '';
    page.showLists();
  }
}

function trouble(booking, words) {
  cancel.troubles.set(keyOf(booking), words);
  return '';
}

function replied(booking, { status, json }) {
  const { perhaps, not } = wordsOf(booking), isWithdrawn = booking.now.state === 'logged', { title } = booking, { id } = json;
  if (status === 503) return trouble(booking, say(perhaps, { cause: json.name }));
  if (status !== 200) return trouble(booking, say(not, { cause: REFUSALS[json.refusal] || json.name || say('fault.unreadable') }));
  if (json.state === 'cancels') return say(isWithdrawn ? 'cancel.hadRoom' : 'cancel.cancelled', { title, id });
  if (!isWithdrawn) return say('cancel.nothing', { title });
  booking.withdrawn = id;
  return say('cancel.withdrawn', { title, id });
}
