// Wall clocks of other zones: when an hour there is by the clocks of the rooms.
import { clockOf, minuteOf } from './texts.js';

/** Names of Windows for zones of these parts, as Outlook writes them. */
const OF_WINDOWS = { 'W. Europe Standard Time': 'Europe/Berlin', 'Central Europe Standard Time': 'Europe/Budapest', 'Central European Standard Time': 'Europe/Warsaw',
  'Romance Standard Time': 'Europe/Paris', 'GMT Standard Time': 'Europe/London', 'E. Europe Standard Time': 'Europe/Chisinau', 'FLE Standard Time': 'Europe/Kiev',
  'GTB Standard Time': 'Europe/Bucharest', 'Turkey Standard Time': 'Europe/Istanbul', 'Russian Standard Time': 'Europe/Moscow', 'Eastern Standard Time': 'America/New_York',
  'Central Standard Time': 'America/Chicago', 'Pacific Standard Time': 'America/Los_Angeles', UTC: 'UTC' };

const MINUTE = 60000;

/** Minutes since 1970 of a day and a time, as if they were of Greenwich. */
export const minutesOf = (day, time) => Date.parse(day + 'T00:00:00Z') / MINUTE + minuteOf(time);

/** A zone by its name as the browser knows it, or nothing. */
export function zoneNamed(name) {
  const zone = OF_WINDOWS[name] || name;
  try {
    clockOf(new Date(0), zone);
    return zone;
  } catch {
    return '';
  }
}

/** The day and time by the clocks of `there` when it is this day and time by those of `zone`. An hour that a clock passes over is the one after it. */
export function elsewhere(day, time, zone, there) {
  if (zone === there) return { day, time };
  const wall = minutesOf(day, time);
  let moment = wall;
  for (let turn = 0; turn < 3; turn += 1) {
    const clock = clockOf(new Date(moment * MINUTE), zone);
    moment += wall - minutesOf(clock.day, clock.time);
  }
  const clock = clockOf(new Date(moment * MINUTE), there);
  return { day: clock.day, time: clock.time.slice(0, 5) };
}
