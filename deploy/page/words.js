// The page's words, in the language that language.js settled. Each sentence is whole, as a template in words/en.js, words/de.js and words/fr.js:
//
//   say('find.none')                            a text; the key is the module's name and a name of the sentence, and stands in the code as it is
//   say('acts.checkedIn', { title: row.title }) `{title}` in the template is that value; a number is written as the language does
//   say('met.waiting', { count })               a template of several forms, by the plural categories of the language: { one: .., other: .. },
//                                               and 0: .. where none is said otherwise; `count` chooses
//   pieces('box.where', { room: el('b', ..) })  a list of texts and elements, where a value is an element
//
// Values become text, never markup. What many modules say is `all.`, what goes wrong while asking `fault.`. Words in the HTML are filled in by
// filling.js. A key that a language lacks is said in English; tests/words.py finds it.
import { language, locale } from './language.js';
import en from './words/en.js';
import de from './words/de.js';
import fr from './words/fr.js';

const WORDS = { en, de, fr };
const plurals = new Intl.PluralRules(locale), lists = new Intl.ListFormat(locale, { type: 'unit', style: 'short' });

/** A number as the language writes it, without marks between thousands. */
export const numberText = (number, options) => number.toLocaleString(locale, { useGrouping: false, ...options });

/** Things beside one another, as `oak, elm` in English and `oak und elm` in German. */
export const listText = texts => lists.format(texts);

/** With a great first letter, as a head or a sentence begins. */
export const capital = text => text.replace(/^./u, letter => letter.toLocaleUpperCase(locale));

function templateOf(key, count) {
  const found = WORDS[language][key] ?? en[key] ?? key;
  return typeof found === 'string' ? found : found[count] ?? found[plurals.select(count)] ?? found.other;
}

const shown = value => typeof value === 'number' ? numberText(value) : value ?? '';

export function pieces(key, values = {}) {
  const parts = templateOf(key, values.count).split(/\{(\w+)\}/);
  return parts.map((part, place) => place % 2 ? shown(values[part]) : part).filter(part => part !== '');
}

export const say = (key, values) => pieces(key, values).join('');
