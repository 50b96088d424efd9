// Whether the offices have met: when each other office was met last, and how many requests wait to be final. The office's service
// writes it each minute into status.json; a page shows it in one line, red from the age on that the file names.
import { el, renew } from './texts.js';
import { say } from './words.js';
import { momentOf } from './office.js';

const MINUTE = 60000, SILENT = 5;

const timeOfText = text => typeof text === 'string' && !isNaN(Date.parse(text)) ? new Date(text) : null;

/** The other offices by name, each with the later of the times at which it was called and at which it called. */
function officesOf({ peers, callers }) {
  const offices = new Map();
  for (const { name, met, fault } of [...peers || [], ...callers || []]) {
    const known = offices.get(name) || { name, met: null, fault: null }, time = timeOfText(met);
    offices.set(name, { name, met: !known.met || (time && time > known.met) ? time || known.met : known.met, fault: known.fault || fault || null });
  }
  return [...offices.values()];
}

/** The line in pieces, each with whether it is red; nothing for an office alone. */
function metWords(status, at = new Date()) {
  if (!status) return [];
  const offices = officesOf(status), isOlder = (time, minutes) => !time || at - time > minutes * MINUTE, made = timeOfText(status.made);
  if (!offices.length) return [];
  const words = offices.map(({ name, met, fault }) => {
    const isRed = isOlder(met, status.red_minutes || 60);
    const has = isRed && fault, values = { name, moment: met && momentOf(met), fault };
    return { isRed, words: met ? say(has ? 'met.metFault' : 'met.met', values) : say(has ? 'met.neverFault' : 'met.never', values) };
  });
  words.push({ isRed: false, words: say('met.waiting', { count: status.tentative || 0 }) });
  if (isOlder(made, SILENT)) words.unshift({ isRed: true, words: made ? say('met.silentSince', { moment: momentOf(made) }) : say('met.silent') });
  return words;
}

export function showMet(place, status) {
  const words = metWords(status);
  place.hidden = !words.length;
  renew(place, ...words.flatMap(each => [el('span', { className: each.isRed ? 'red' : '' }, each.words), ' '])
    .map(each => typeof each === 'string' ? document.createTextNode(each) : each));
}
