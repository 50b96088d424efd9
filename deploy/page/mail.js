// The mail address of whoever booked, which the office mails what becomes of the request. The page asks for one only where the office can send
// mails, hands it over once the request has its id, and keeps it nowhere. The field of the request form is `mail`; the list of many requests
// has `plan-mail`, and the form in which a booking is changed `move-mail`.
import { byId, el } from './texts.js';
import { Fault, putText } from './office.js';
import { complain } from './fields.js';
import { status } from './news.js';
import { say } from './words.js';

const NAME = '[A-Za-z0-9](?:[A-Za-z0-9-]{0,61}[A-Za-z0-9])?';
const ADDRESS = new RegExp('^(?=.{3,254}$)[A-Za-z0-9_][A-Za-z0-9.!#$&\'*+/=?^_{}~-]{0,63}@' + NAME + '(?:\\.' + NAME + ')*$');

/** What is filled in; nothing where no address is asked for. */
function filledIn(field) {
  const place = byId(field + '-field');
  return !place || place.hidden ? '' : byId(field).value.trim();
}

/** A field where the HTML has none, with a hint. */
export function mailField(field, hint) {
  return el('p', { id: field + '-field', className: 'fields', hidden: !status?.mail },
    el('label', {}, say('index.mail'), ' ', el('input', { id: field, type: 'email', size: 30, 'aria-describedby': field + '-hint ' + field + '-error' })),
    el('span', { id: field + '-hint', className: 'hint' }, hint), el('span', { id: field + '-error', className: 'error' }));
}

/** Where the state isn't known for a moment, the fields stay as they are. */
export function showMailField() {
  if (!byId('plan-mail')) byId('plan-buttons').before(mailField('plan-mail', say('mail.ofEach')));
  if (status) for (const field of ['mail', 'plan-mail']) byId(field + '-field').hidden = !status.mail;
}

/** The next list is somebody else's. */
export function forgetAddress(field) {
  if (byId(field)) byId(field).value = '';
}

/** Whether what is filled in may stay: an address, or nothing. */
export function isMailWell(field = 'mail') {
  const address = filledIn(field), isWell = !address || ADDRESS.test(address);
  if (byId(field + '-error')) byId(field + '-error').textContent = '';
  byId(field)?.removeAttribute('aria-invalid');
  if (!isWell) complain(field, say('mail.wrong'));
  return isWell;
}

/** Hands the address of a field over for a request. Gives the cause where it wasn't taken, '' where it was, and null where there is none. */
export async function handOver({ id, state }, field) {
  const address = filledIn(field);
  if (!address) return null;
  try {
    await putText('/mail/' + id, state === 'booked' ? address : address + ' none');
    return '';
  } catch (fault) {
    if (!(fault instanceof Fault)) throw fault;
    return fault.message;
  }
}

/** What came of that, in words. */
export const mailWords = ({ id }, cause) => cause ? say('mail.notTaken', { id, cause }) : say('mail.given', { id });

/** The same for the request form, beside which it is said. */
export async function giveAddress(outcome) {
  const cause = await handOver(outcome, 'mail'), word = byId('mail-word');
  if (cause === null) return;
  word.className = cause ? 'error' : 'hint';
  word.textContent = mailWords(outcome, cause);
}
