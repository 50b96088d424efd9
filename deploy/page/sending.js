// One request of many, sent once, and what came of it. While the office takes none, as between two stretches of serving, it is tried
// again, since it surely was not sent; where no reply came, the sheet and the error log say whether it is there.
import { minuteOf, timeOf } from './texts.js';
import { Fault, ask, askErrors, askMayBook, askSheet } from './office.js';
import { REFUSALS } from './form.js';
import { say } from './words.js';

const PAUSE = 1000, TRIES = 60;

const pause = () => new Promise(resolve => { setTimeout(resolve, PAUSE); });

/** What this gives, once the office takes requests; `isStopped` ends the waiting. */
export async function patiently(act, isStopped = () => false) {
  for (let left = TRIES; ; left -= 1) {
    try {
      return await act();
    } catch (fault) {
      if (!(fault instanceof Fault) || fault.sent || !fault.isPause || !left || isStopped()) throw fault;
      await pause();
    }
  }
}

/** Sends a request: `booked` or `none` with the office's outcome, `refused` with a sentence, `perhaps` with a cause; `isLast`: so will all others be. A fault means that it was not sent. */
export async function sendRequest(asked, isStopped) {
  await askMayBook();
  try {
    const { status, json } = await patiently(() => ask('/submit', JSON.stringify(asked)), isStopped);
    if (status === 200) return { kind: json.state === 'booked' ? 'booked' : 'none', outcome: json, words: '' };
    const refusal = REFUSALS[json.refusal], words = refusal ? refusal[1] : say('sending.refused', { cause: json.name || say('fault.unreadable') });
    if (status !== 503) return { kind: 'refused', outcome: null, isLast: [13, 14].includes(json.refusal), words };
    return await found(asked, json.name);
  } catch (fault) {
    if (!(fault instanceof Fault) || !fault.sent) throw fault;
    return found(asked, fault.message);
  }
}

/** Without a reply: what the office has of it. */
async function found(asked, cause) {
  const outcome = await lookFor(asked).catch(fault => { if (fault instanceof Fault) return null; throw fault; });
  if (outcome) return { kind: outcome.state === 'booked' ? 'booked' : 'none', outcome, words: '' };
  return { kind: 'perhaps', outcome: null, words: cause };
}

/** The booking of these hours and title, or of an alternative, or else the request of them without a room, as an outcome; null where none is there. */
export async function lookFor(asked, isOther = () => true) {
  const { room, day, start, length, title, alternatives } = asked;
  for (const slot of [{ day, start }, ...alternatives || []]) {
    const from = minuteOf(slot.start), { rows } = await askSheet(room, slot.day);
    const row = (rows || []).find(each => each.start === from && each.stop === from + length && each.title === title && isOther(each.id));
    if (row) return { id: row.id, mark: row.mark, state: 'booked', day: slot.day, start: slot.start, stop: timeOf(row.stop) };
  }
  const line = (await askErrors(room)).map(each => /^([CT]) (\d+-\d+) (\d{4}-\S+) (\d\d:\d\d)-\S+ (.*)$/.exec(each) || [])
    .find(([, , id, onDay, at, words]) => onDay === day && at === start && words === title && isOther(id));
  return line ? { id: line[2], mark: line[1], state: 'logged' } : null;
}
