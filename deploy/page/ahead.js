// Views of many days: the sheet of the chosen day is asked for in each round, the others once they are some minutes old.
import { at, sheetOf } from './office.js';

const OLD = 300000;

/** Of the sheets that a view shows, those that a round asks for. */
export function due(columns) {
  return columns.filter(({ room, day }) => {
    const sheet = day !== at.day && sheetOf(room, day);
    return !sheet || sheet.isKept || Date.now() - sheet.at > OLD;
  });
}
