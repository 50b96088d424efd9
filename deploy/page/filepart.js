// Many at once from a file: it is read here, in the browser, and shown as a plan before anything is asked for.
import { byId, el, put } from './texts.js';
import { labelOf, office } from './office.js';
import { askGroups } from './groups.js';
import { itemsOfFile } from './importing.js';
import { say } from './words.js';

export function fillFile() {
  const chosen = byId('file-room').value;
  byId('file-room').replaceChildren(el('option', { value: '' }, say('filepart.none')), ...office.rooms.map(room => el('option', { value: room.name }, labelOf(room.name))));
  byId('file-room').value = chosen;
}

/** `lookAtPlan` is called with the name of a file and what it became. */
export function startFile(lookAtPlan) {
  const read = async () => {
    const [file] = byId('file-pick').files;
    put({ 'file-error': '' });
    if (!file) return;
    const bytes = await file.arrayBuffer().then(buffer => new Uint8Array(buffer), () => null);
    await askGroups();
    const { items, trouble } = bytes ? itemsOfFile(bytes, byId('file-room').value) : { items: [], trouble: say('filepart.unreadable') };
    put({ 'file-error': trouble });
    if (items.length) await lookAtPlan(file.name, items);
  };
  byId('file-pick').addEventListener('change', read);
  byId('file-room').addEventListener('change', read);
}
