// The words of a page's HTML. An element with `data-words` has the sentence of that key: in the place of its first text, beside the elements
// within it; or, where these have a `data-place`, in the whole of it, with each of them at the place of that name. `data-words-title` and the
// like have the sentence of an attribute. The HTML has them in English, for whoever reads it.
import { language } from './language.js';
import { pieces, say } from './words.js';

/** What stands in an attribute; the style sheet shows `data-none` where a list is empty. */
const ATTRIBUTES = ['aria-label', 'title', 'placeholder', 'data-none'];

function fill(node) {
  const key = node.dataset.words, placed = [...node.children].filter(child => child.dataset.place);
  if (placed.length) return node.replaceChildren(...pieces(key, Object.fromEntries(placed.map(child => [child.dataset.place, child]))));
  const text = [...node.childNodes].find(child => child.nodeType === Node.TEXT_NODE && child.data.trim());
  if (text) text.data = text.data.replace(/\S(?:.*\S)?/s, () => say(key)); else node.prepend(say(key));
}

/** Fills all in; and what a page says as long as its modules don't run is said no more. */
export function fillWords() {
  document.querySelector('.unstarted')?.remove();
  document.documentElement.lang = language;
  for (const node of document.querySelectorAll('[data-words]')) fill(node);
  for (const name of ATTRIBUTES) {
    for (const node of document.querySelectorAll('[data-words-' + name + ']')) node.setAttribute(name, say(node.getAttribute('data-words-' + name)));
  }
}
