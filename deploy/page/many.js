// Many at once: the panel in which a series is made, or a file read, looked at, and asked for one by one; and where a run that was broken off
// is taken up.
import { byId, el, buttonOf, isDay, put, weekday, weekOf } from './texts.js';
import { Fault, at, labelOf, office, page } from './office.js';
import { sendCancel } from './cancel.js';
import { fillFile, startFile } from './filepart.js';
import { askGroups, contentOf } from './groups.js';
import { showGroups } from './grouplist.js';
import { alone, dropRun, readRun } from './journal.js';
import { isMailWell } from './mail.js';
import { countOf, itemOf, look, STATES } from './plan.js';
import { FEW, forgetPlan, offerFor, showItems } from './planlist.js';
import { sure } from './question.js';
import { askAll, begin, keep, lookAgain, run, takeUp, wantedOf } from './run.js';
import { daysOfList, daysOfSeries, numberOf } from './series.js';
import { say } from './words.js';

const REST = 300, ANY_DAY = '2026-06-03';
let part = 'series', isLooking = false, isStopped = false, looked = [0, 0], drawn = 0;

// ---- the series

/** What stands in the request form is where the series begins. */
function fillSeries() {
  byId('series-room').replaceChildren(...office.rooms.map(room => el('option', { value: room.name }, labelOf(room.name))));
  byId('series-room').value = byId('room').value || at.room;
  byId('series-start').value = byId('wish-start').value;
  byId('series-length').value = byId('length').value;
  byId('series-title').value = byId('title').value;
  byId('series-from').value = byId('wish-day').value || at.day;
  tickDay();
}

const ticks = () => [...byId('series-weekdays').querySelectorAll('input')];

/** The weekday of the first day is ticked, unless others were. */
function tickDay() {
  const from = byId('series-from').value;
  if (isDay(from) && !ticks().some(box => box.dataset.byHand)) for (const box of ticks()) box.checked = Number(box.value) === numberOf(from);
}

/** A box for each day of the week, in the order that it has by the language; the value is 1 for Monday in each. */
function makeTicks() {
  byId('series-weekdays').append(...weekOf(ANY_DAY).map(day => {
    const box = el('input', { type: 'checkbox', value: numberOf(day) });
    box.addEventListener('change', () => { box.dataset.byHand = 'yes'; });
    return el('label', { className: 'tick' }, box, weekday(day, 'short'));
  }));
}

/** The items of the series as it is filled in, or what is wrong. */
function readSeries() {
  const value = id => byId(id).value.trim(), length = value('series-length');
  if (!value('series-start')) return { trouble: say('many.noStart') };
  if (!/^[0-9]{1,4}$/.test(length) || Number(length) < 1 || Number(length) > 1440) return { trouble: say('many.noLength') };
  if (!value('series-title')) return { trouble: say('many.noTitle') };
  const list = value('series-list'), { days, trouble } = list ? daysOfList(list) : daysOfSeries({ from: value('series-from'), until: value('series-until'),
    weekdays: ticks().filter(box => box.checked).map(box => Number(box.value)), every: value('series-every') });
  if (trouble) return { trouble };
  const wish = { room: value('series-room'), start: value('series-start'), length: Number(length), title: byId('series-title').value };
  const isLate = Number(wish.start.slice(0, 2)) * 60 + Number(wish.start.slice(3)) + wish.length > 1440;
  return isLate ? { trouble: say('all.midnight') } : { items: days.map(day => itemOf({ ...wish, day, key: '' })) };
}

function lookAtSeries(event) {
  event.preventDefault();
  if (run.isGoing || isLooking) return;
  const { items, trouble } = readSeries();
  put({ 'series-error': trouble || '' });
  if (items) lookAtPlan(byId('series-title').value.trim(), items);
}

// ---- the plan

/** Begins a plan: reads the sheets of its days, and shows what stands in its way. */
export async function lookAtPlan(title, items) {
  forgetPlan();
  begin(title, items);
  await lookAgainAtAll();
}

async function lookAgainAtAll() {
  Object.assign(run, { trouble: '', show: showPlan });
  isLooking = true;
  isStopped = false;
  looked = [0, 0];
  showPlan();
  await look(run.items, (...counts) => { looked = counts; showPlan(); }, () => isStopped);
  isLooking = false;
  showPlan();
  byId('plan-words').scrollIntoView({ block: 'center' });
}

async function go() {
  if (!isMailWell('plan-mail')) return;
  run.isGoing = true;
  showPlan();
  byId('plan-words').scrollIntoView({ block: 'center' });
  if (await alone(async () => { await askAll(); return true; })) return ended();
  run.isGoing = false;
  run.trouble = say('many.otherWindow');
  showPlan();
}

/** What found no room is shown with free hours; where that is much, those of each at a press. */
async function ended() {
  await offerFor(run.items.filter(item => item.state === 'none').slice(0, FEW));
  showPlan();
  page.round();
}

/** A free slot instead: before it was asked for, the item takes it; afterwards it is asked for, and the request without a room is withdrawn. */
async function takeSlot(item, slot) {
  const key = item.key || contentOf(item);
  if (item.state === 'clash') {
    Object.assign(item, slot, { key, state: 'free', words: '', isWanted: true });
    return showPlan();
  }
  const next = { ...item, ...slot, key, id: '', state: 'free', words: '', isWanted: true }, ticked = run.items.filter(each => each.isWanted);
  for (const each of ticked) each.isWanted = false;
  run.items.splice(run.items.indexOf(item), 0, next);
  await go();
  for (const each of ticked) each.isWanted = true;
  if (next.state === 'booked') await withdraw(item, next);
  showPlan();
}

/** Another request is booked in the place of one without a room, which gets none any more. */
async function withdraw(item, next) {
  const first = { room: item.room, title: item.title, now: { id: item.id, state: 'logged', mark: item.mark || 'T' }, withdrawn: '' };
  if (first.now.mark === 'T' && !await sendCancel(first)) {
    run.trouble = say('many.notWithdrawn', { id: item.id });
    return;
  }
  run.items.splice(run.items.indexOf(item), 1);
  next.words = say(first.withdrawn ? 'many.insteadWithdrawn' : 'many.instead', { id: item.id });
  await keep();
  if (!run.keepTrouble) dropRun();
}

function wordsOfPlan() {
  const count = state => run.items.filter(item => item.state === state).length;
  if (isLooking) return say('many.looking', { done: looked[0], of: looked[1] });
  if (run.isGoing) return say('many.asking', { done: run.done, of: run.of });
  const counts = Object.keys(STATES).filter(count).map(state => countOf(state, count(state)));
  return say('many.list', { count: run.items.length, counts: counts.reduce((words, next) => words ? say('many.beside', { words, next }) : next, '') });
}

function keyed(name, words, act, properties) {
  const button = buttonOf(words, act, properties);
  button.dataset.key = name;
  return button;
}

function buttonsOfPlan() {
  const wanted = wantedOf(run.items).length, unsure = run.items.filter(item => item.state === 'perhaps');
  if (run.isGoing || isLooking) return [keyed('stop', say('all.stop'), () => { run.isStopped = isStopped = true; })];
  return [wanted ? keyed('ask', say('many.ask', { count: wanted }), go, { className: 'main' }) : null,
    unsure.length ? keyed('unsure', say('many.unsure'), () => lookForUnsure(unsure)) : null,
    run.keepTrouble ? keyed('keep', say('many.keep'), keepAgain) : null,
    wanted ? keyed('again', say('many.again'), lookAgainAtAll) : null, keyed('away', say('many.away'), putAway)].filter(button => button);
}

async function lookForUnsure(items) {
  for (const item of items) await lookAgain(item);
  run.trouble = '';
  await keep();
  showPlan();
}

async function keepAgain() {
  await keep();
  if (!run.keepTrouble) dropRun();
  showPlan();
}

async function putAway() {
  const left = wantedOf(run.items).length;
  if (left && run.items.some(item => item.id) && !await sure(say('many.sure', { count: left }), say('many.sureYes'), say('many.sureNo'))) return;
  dropRun();
  byId('file-pick').value = '';
  begin('', [{ day: at.day }]);
  run.items = [];
  showPlan();
}

/** While it goes on, the list is drawn a few times a second. */
function showPlan() {
  const isBusy = run.isGoing || isLooking, bar = byId('plan-progress'), [done, of] = isLooking ? looked : [run.done, run.of];
  byId('plan').hidden = !run.items.length || part === 'groups';
  put({ 'plan-words': isBusy && done % 10 && done !== of ? byId('plan-words').textContent : wordsOfPlan(), 'plan-trouble': troubleWords() });
  bar.hidden = !isBusy;
  Object.assign(bar, { max: of || 1, value: done });
  if (isBusy && Date.now() - drawn < REST) return;
  drawn = Date.now();
  const held = document.activeElement && document.activeElement.dataset.key;
  byId('plan-buttons').replaceChildren(...buttonsOfPlan());
  showItems(run.items, { show: showPlan, take: takeSlot }, isBusy);
  if (held && document.activeElement === document.body) (byId('plan').querySelector('[data-key="' + CSS.escape(held) + '"]') || byId('many-title')).focus();
}

function troubleWords() {
  return [run.trouble, run.keepTrouble && say('many.notKept', { cause: run.keepTrouble })].filter(each => each).join(' ');
}

// ---- the panel

export function showPart(name) {
  part = name;
  byId('series').hidden = part !== 'series';
  byId('file').hidden = part !== 'file';
  byId('groups').hidden = part !== 'groups';
  for (const button of byId('many-parts').querySelectorAll('[data-part]')) button.setAttribute('aria-pressed', button.dataset.part === part);
  if (part === 'groups') askGroups().then(showGroups, unlessFault);
  showPlan();
}

function unlessFault(fault) {
  if (!(fault instanceof Fault)) throw fault;
}

export function openMany(isOpen = byId('many').hidden) {
  byId('many').hidden = !isOpen;
  byId('many-open').setAttribute('aria-expanded', isOpen);
  if (!isOpen) return byId('many-open').focus();
  if (!run.items.length) fillSeries();
  fillFile();
  showPart(part);
  byId('many-title').focus();
}

/** A run that was broken off, and that no other window of this browser goes on with. */
export async function findBroken() {
  const broken = readRun();
  if (!broken || !await alone(() => true)) return;
  openMany(true);
  run.show = showPlan;
  await takeUp(broken);
  await look(run.items, () => {}, () => false);
  const left = wantedOf(run.items).length;
  run.trouble = [say('many.broken', { count: left }), run.trouble].filter(each => each).join(' ');
  if (!left && !run.keepTrouble) dropRun();
  showPlan();
}

export function startMany() {
  makeTicks();
  byId('many-open').addEventListener('click', () => openMany());
  byId('many-close').addEventListener('click', () => openMany(false));
  byId('many-parts').addEventListener('click', event => { if (event.target.dataset.part) showPart(event.target.dataset.part); });
  byId('series').addEventListener('submit', lookAtSeries);
  byId('series-from').addEventListener('change', tickDay);
  startFile((title, items) => run.isGoing || isLooking ? undefined : lookAtPlan(title, items));
  window.addEventListener('beforeunload', event => { if (run.isGoing) event.preventDefault(); });
}
