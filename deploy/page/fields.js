// The fields of the request form, and what is said beside each that is at fault.
import { byId } from './texts.js';

const FIELDS = { room: 'room', day: 'wish-day', start: 'wish-start', length: 'length', choices: 'choices', title: 'title', mail: 'mail', send: 'send' };

export function complain(field, ...words) {
  byId(field + '-error').replaceChildren(...words);
  const place = byId(FIELDS[field] || field);
  place.setAttribute('aria-invalid', 'true');
  place.focus();
}

export function calm() {
  byId('request').classList.remove('refused');
  byId('offers').replaceChildren();
  for (const [field, id] of Object.entries(FIELDS)) {
    byId(field + '-error').textContent = '';
    byId(id).removeAttribute('aria-invalid');
  }
}
