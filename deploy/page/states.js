// The states of requests in a desk's words.
import { byId, el } from './texts.js';
import { say } from './words.js';

/** A state in a word, its class, and the sentence that goes with it. `withdrawn` is the cancel of a request that had no room. */
export function stateOf(outcome, withdrawn) {
  if (!outcome) return [say('states.unknown'), 'none', say('states.knownNoMore')];
  const final = outcome.mark === 'C';
  if (outcome.state === 'logged') return withoutRoom(final, withdrawn);
  if (outcome.state === 'cancelled') {
    return [say('states.cancelled'), 'cancelled', say(outcome.bymark === 'C' ? 'states.cancelledBy' : 'states.cancelledByOpen', { id: outcome.by })];
  }
  return final ? [say('states.booked'), 'sure', ''] : [say('states.notFinal'), 'open', say('states.mayMove')];
}

function withoutRoom(final, withdrawn) {
  if (withdrawn) return [say('states.withdrawn'), 'cancelled', say('states.withdrawnBy', { id: withdrawn })];
  return [say('states.noRoom'), 'none', say(final ? 'states.wereTaken' : 'states.areTaken')];
}

export const chipOf = (word, kind) => el('span', { className: 'state ' + kind }, word);

/** What came of the last press, in the form's own line and, as it lies behind the box, in words for a screen reader there. */
export function report(words, isGood) {
  byId('mail-word').textContent = '';
  byId('outcome').textContent = words;
  byId('outcome').className = words === '' ? '' : isGood ? 'good' : 'bad';
}

/** Takes away what went well before, when something else begins. */
export function reportNoMore() {
  if (byId('outcome').className === 'good') report('');
}
