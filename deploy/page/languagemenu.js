// The menu of languages in the head of the page, each by the name that it has for itself.
import { LANGUAGES, choose, chosen, unchosen } from './language.js';
import { el } from './texts.js';
import { say } from './words.js';

export function startLanguageMenu(menu) {
  const automatic = say('languagemenu.automatic', { name: LANGUAGES[unchosen()].name });
  menu.append(el('option', { value: '' }, automatic), ...Object.entries(LANGUAGES).map(([tag, { name }]) => el('option', { value: tag, lang: tag }, name)));
  menu.value = chosen();
  menu.addEventListener('change', () => choose(menu.value));
}
