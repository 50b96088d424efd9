// The groups of the office: what became of each of their requests, and the cancel of a whole one, which is pressed twice.
import { byId, el, buttonOf, hoursText, minuteOf, renew, dateText, dayText } from './texts.js';
import { Fault, askOutcome, askSheet, labelOf, now, page } from './office.js';
import { sendCancel } from './cancel.js';
import { groups, keepGroup } from './groups.js';
import { patiently } from './sending.js';
import { sure } from './question.js';
import { chipOf, stateOf } from './states.js';
import { listText, pieces, say } from './words.js';

const opened = new Set();   // the names of those that are shown whole
const outcomes = new Map(); // by room and id: what the office said last
const work = { name: '', words: '', done: 0, of: 0, isStopped: false };

const keyOf = item => item.room + ' ' + item.id;

/** What became of the requests of a group: by the sheets of their days, and by their ids where they aren't there. */
async function askGroup(group) {
  const read = new Map();
  for (const item of group.items.filter(each => each.id)) {
    const { room, day, start, id } = item, sheet = room + ' ' + day;
    if (!read.has(sheet)) read.set(sheet, (await askSheet(room, day)).rows || []);
    const row = read.get(sheet).find(each => each.id === id && each.start === minuteOf(start));
    outcomes.set(keyOf(item), row ? { id, mark: row.mark, state: 'booked', day, start } : await askOutcome(room, id));
    showGroups();
  }
}

const isStanding = outcome => Boolean(outcome) && (outcome.state === 'booked' || (outcome.state === 'logged' && outcome.mark === 'T'));

/** Cancels what stands of a group and is not past, one by one. */
async function cancelGroup(group) {
  const coming = group.items.filter(item => item.id && item.day >= now().day && item.state !== 'cancelled');
  const words = say('grouplist.sure', { count: coming.length, title: group.title });
  if (work.name || !coming.length || !await sure(words, say('grouplist.sureYes'), say('grouplist.sureNo'))) return;
  Object.assign(work, { name: group.name, words: '', done: 0, of: coming.length, isStopped: false });
  const counts = { cancelled: 0, withdrawn: 0, gone: 0 };
  let trouble = '';
  for (const item of coming) {
    if (work.isStopped || trouble) break;
    trouble = await cancelItem(item, counts);
    work.done += trouble ? 0 : 1;
    showGroups();
  }
  const lost = await keepGroup(group);
  work.words = [wordsOf(counts), trouble, work.isStopped && say('grouplist.stopped', { count: work.of - work.done }), lost && say('grouplist.notKept', { cause: lost })]
    .filter(each => each).join(' ');
  work.name = '';
  page.round();
  showGroups();
}

function wordsOf({ cancelled, withdrawn, gone }) {
  const parts = [say('grouplist.cancelled', { count: cancelled }), withdrawn && say('grouplist.withdrawn', { count: withdrawn }), gone && say('grouplist.gone', { count: gone })];
  return say('grouplist.became', { parts: listText(parts.filter(each => each)) });
}

/** Cancels one, if it stands. Gives what went wrong. */
async function cancelItem(item, counts) {
  try {
    const outcome = await patiently(() => askOutcome(item.room, item.id), () => work.isStopped);
    outcomes.set(keyOf(item), outcome);
    if (isStanding(outcome)) {
      const isBooked = outcome.state === 'booked', booking = { room: item.room, title: item.title, now: outcome };
      await sendCancel(booking);
      const after = await askOutcome(item.room, item.id);
      outcomes.set(keyOf(item), after);
      if (isBooked && isStanding(after)) return say('grouplist.perhapsNot', { title: item.title, date: dateText(item.day) });
      counts[isBooked ? 'cancelled' : 'withdrawn'] += 1;
    } else counts.gone += 1;
    item.state = 'cancelled';
    return '';
  } catch (fault) {
    if (!(fault instanceof Fault)) throw fault;
    return say('grouplist.notCancelled', { title: item.title, date: dateText(item.day), cause: fault.message });
  }
}

// ---- what is shown

function chipOfItem(item, outcome) {
  if (!item.id) return chipOf(say('states.perhaps'), 'none');
  if (outcome === undefined) return chipOf(say('grouplist.asking'), 'open');
  const isWithdrawn = item.state === 'cancelled' && outcome?.state === 'logged', [word, kind] = stateOf(outcome, isWithdrawn);
  return chipOf(word, kind);
}

function rowOf(item) {
  const { room, day, start, length, title, id } = item, outcome = outcomes.get(keyOf(item)), from = minuteOf(start);
  const isMoved = outcome && outcome.state === 'booked' && (outcome.day !== day || outcome.start !== start);
  const values = { day: dayText(day, 'short'), hours: hoursText(from, from + length), room: labelOf(room), title, id };
  const moved = isMoved && el('b', {}, say('grouplist.now', { date: dateText(outcome.day), start: outcome.start }));
  return el('li', {}, chipOfItem(item, outcome), ' ', ...isMoved ? pieces('grouplist.moved', { ...values, moved }) : [say(id ? 'grouplist.request' : 'grouplist.item', values)]);
}

function toggle(group) {
  if (!opened.delete(group.name)) {
    opened.add(group.name);
    askGroup(group).catch(fault => { if (!(fault instanceof Fault)) throw fault; });
  }
  showGroups();
}

function keyed(name, group, words, act, properties) {
  const button = buttonOf(words, act, { ...properties, 'aria-label': say('all.labelled', { words, title: group.title }) });
  button.dataset.key = name + ' ' + group.name;
  return button;
}

function itemOf(group) {
  const days = group.items.map(item => item.day).sort(), isOpen = opened.has(group.name), isAt = work.name === group.name;
  const left = group.items.filter(item => item.id && item.state !== 'cancelled' && item.day >= now().day);
  const words = say(left.length ? 'grouplist.span' : 'grouplist.spanGone', { count: group.items.length, from: dateText(days[0]), to: dateText(days.at(-1)) });
  const cancel = isAt ? keyed('stop', group, say('all.stop'), () => { work.isStopped = true; })
    : left.length ? keyed('all', group, say('grouplist.all', { count: left.length }), () => cancelGroup(group), { className: 'cancel' }) : null;
  return el('section', { className: 'group', 'aria-label': group.title }, el('h3', {}, group.title), el('p', {}, words),
    isAt ? el('p', {}, el('progress', { max: work.of, value: work.done, 'aria-label': say('states.cancelled') }), ' ', say('grouplist.done', { done: work.done, of: work.of })) : null,
    el('p', { className: 'buttons' }, keyed('show', group, say(isOpen ? 'grouplist.hide' : 'grouplist.show'), () => toggle(group), { 'aria-expanded': isOpen }), cancel),
    isOpen ? el('ul', {}, ...group.items.map(rowOf)) : null);
}

export function showGroups() {
  const held = document.activeElement && document.activeElement.dataset.key, place = byId('groups');
  const words = say(!groups.isThere ? 'grouplist.older' : groups.list.length ? 'grouplist.hint' : 'grouplist.none');
  renew(place, el('p', { className: 'hint' }, words), el('p', { role: 'status', className: 'good' }, work.words),
    ...groups.list.filter(group => group.items.length).map(itemOf));
  if (!held || document.activeElement !== document.body) return;
  ([...place.querySelectorAll('[data-key]')].find(each => each.dataset.key === held) || byId('many-title')).focus();
}
