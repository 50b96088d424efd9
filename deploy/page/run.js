// A run: the requests of a plan are sent one by one, can be stopped, and are kept as a group at the office.
import { dateText } from './texts.js';
import { Fault, labelOf } from './office.js';
import { keepGroup, nameOfGroup } from './groups.js';
import { dropRun, isDone, isSending, keepRun } from './journal.js';
import { forgetAddress, handOver } from './mail.js';
import { mayAsk } from './plan.js';
import { lookFor, sendRequest } from './sending.js';
import { say } from './words.js';

const EVERY = 25;

/** The run of this page: what is asked for, how far it is, and what went wrong: `trouble` is a sentence, `keepTrouble` a cause. `show` is called whenever something changed. */
export const run = { name: '', title: '', made: '', items: [], done: 0, of: 0, isGoing: false, isStopped: false, trouble: '', keepTrouble: '', show() {} };

export function begin(title, items) {
  forgetAddress('plan-mail');
  Object.assign(run, { name: nameOfGroup(items), title, made: new Date().toISOString(), items, done: 0, of: 0, isStopped: false, trouble: '', keepTrouble: '' });
}

export const wantedOf = items => items.filter(item => item.isWanted && mayAsk(item));

const slotOf = ({ room, day, start, length, title }) => ({ room, day, start, length, title });

/** Sends what is wanted. What ends it early is said in `trouble`. */
export async function askAll() {
  const wanted = wantedOf(run.items);
  Object.assign(run, { isGoing: true, isStopped: false, trouble: '', done: 0, of: wanted.length });
  keepRun(run);
  for (const item of wanted) {
    if (run.isStopped || run.trouble) break;
    run.show();
    await askOne(item);
    run.done += 1;
    if (run.done % EVERY === 0) await keep();
  }
  await keep();
  run.isGoing = false;
  if (!run.keepTrouble && !run.trouble) dropRun();
  run.show();
}

export async function keep() {
  run.keepTrouble = await keepGroup(run);
  keepRun(run);
}

async function askOne(item) {
  const place = run.items.indexOf(item);
  isSending(place);
  try {
    await take(item, await sendRequest(slotOf(item), () => run.isStopped));
  } catch (fault) {
    if (!(fault instanceof Fault)) throw fault;
    run.trouble = say('run.notSent', { cause: fault.message, item: nameOf(item) });
  }
  isDone(place, item);
}

const nameOf = ({ title, room, day, start }) => say('run.item', { title, room: labelOf(room), date: dateText(day), start });

async function take(item, { kind, outcome, words, isLast }) {
  Object.assign(item, { state: kind, words, isWanted: false });
  if (outcome) Object.assign(item, { id: outcome.id, mark: outcome.mark });
  if (isLast) run.trouble = words;
  if (kind === 'perhaps') run.trouble = say('run.noReply', { cause: words, item: nameOf(item) });
  const cause = outcome ? await handOver(outcome, 'plan-mail') : null;
  if (cause) item.words = say('run.noMails', { cause });
}

/** Takes up a run that was broken off: what was under way is looked for. */
export async function takeUp(broken) {
  Object.assign(run, { ...broken, done: 0, of: 0, isStopped: false, trouble: '', keepTrouble: '' });
  const item = run.items[broken.sending];
  if (item) await lookAgain(item);
  await keep();
  run.show();
}

/** Whether a request that had no reply is there by now; where it isn't, it may be asked for again. */
export async function lookAgain(item) {
  try {
    const outcome = await lookFor(slotOf(item));
    if (outcome) await take(item, { kind: outcome.state === 'booked' ? 'booked' : 'none', outcome, words: '' });
    else Object.assign(item, { state: 'free', isWanted: true, words: say('run.notAsked') });
  } catch (fault) {
    if (!(fault instanceof Fault)) throw fault;
    Object.assign(item, { state: 'perhaps', words: fault.message });
  }
}
