// Which language the page speaks: the one that was chosen in this browser, else the office's, which rooms.json may name, else the first of the
// browser's own languages that is known here, else English. It is settled before anything is shown: a change opens the page anew.

/** The languages: what each calls itself, and its tag where neither the browser nor the office names a region. */
export const LANGUAGES = { en: { name: 'English', tag: 'en-GB' }, de: { name: 'Deutsch', tag: 'de-DE' }, fr: { name: 'Français', tag: 'fr-FR' } };

const CHOSEN = 'rooms.language', OFFICE = 'rooms.language.office';
/** Where a week begins with its Sunday, for a browser that doesn't say. */
const FROM_SUNDAY = ['CA', 'HK', 'IN', 'JM', 'PH', 'SG', 'US', 'ZA'];

function kept(name) {
  try { return localStorage.getItem(name) || ''; } catch { return ''; }
}

function keep(name, tag) {
  try { localStorage.setItem(name, tag); } catch { /* then the browser's own languages are gone by */ }
}

const languageOf = tag => tag.toLowerCase().split('-')[0];

/** Whether this is the tag of a language that is known here, as de or de-AT. */
const isKnown = tag => typeof tag === 'string' && /^[a-z]{2}(-[a-z]{2})?$/i.test(tag) && Object.hasOwn(LANGUAGES, languageOf(tag));

/** The tag of the first of these, and of the browser's languages, that is known; of the same language the browser's tag may have the region. */
function settledOf(...wished) {
  const own = [...navigator.languages || [navigator.language]].filter(isKnown), first = [...wished, ...own].find(isKnown) || 'en';
  if (first.includes('-')) return first;
  return own.find(tag => tag.includes('-') && languageOf(tag) === languageOf(first)) || LANGUAGES[languageOf(first)].tag;
}

/** The tag that names, numbers and weeks go by, as de-AT; and the language of the words, as de. */
export const locale = settledOf(kept(CHOSEN), kept(OFFICE));
export const language = languageOf(locale);

/** The day of the week that comes first, from 1 for Monday to 7 for Sunday. */
export const firstWeekday = (() => {
  const of = new Intl.Locale(locale), info = of.getWeekInfo ? of.getWeekInfo() : of.weekInfo;
  return info ? info.firstDay : FROM_SUNDAY.includes(of.region) ? 7 : 1;
})();

/** What was chosen in this browser, as de; nothing where it goes by the office and the browser. */
export const chosen = () => isKnown(kept(CHOSEN)) ? kept(CHOSEN) : '';
export const unchosen = () => languageOf(settledOf(kept(OFFICE)));

export function choose(tag) {
  keep(CHOSEN, tag);
  location.reload();
}

/** What the office speaks: where that is news, and changes something here, the page is opened anew. */
export function officeSpeaks(tag) {
  const said = isKnown(tag) ? tag : '';
  if (said === kept(OFFICE)) return;
  keep(OFFICE, said);
  if (settledOf(kept(CHOSEN), kept(OFFICE)) !== locale) location.reload();
}
