// A question before something is done.
import { buttonOf, byId, el } from './texts.js';

let unanswered = () => {};

/** Asks, and gives true where the first button was pressed. A question that is open already gives way, as answered by no. */
export function sure(words, yes, no) {
  const dialog = byId('question');
  return new Promise(resolve => {
    unanswered(false);
    unanswered = resolve;
    const answer = is => { resolve(is); dialog.close(); };
    dialog.replaceChildren(el('p', { id: 'question-words' }, words), el('p', { className: 'buttons' },
      buttonOf(yes, () => answer(true), { className: 'main' }), buttonOf(no, () => answer(false))));
    dialog.onclose = () => { if (!dialog.open) resolve(false); };
    if (!dialog.open) dialog.showModal();
  });
}
