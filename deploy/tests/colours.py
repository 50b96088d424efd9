"""What a page shows, as a screen reader is given it and as eyes see it: names, and contrasts in all states."""

import re
import time

from page import check

CONTRAST = r'''
const light = text => { const [r, g, b] = text.map(each => { const c = each / 255; return c <= 0.04045 ? c / 12.92 : ((c + 0.055) / 1.055) ** 2.4; });
  return 0.2126 * r + 0.7152 * g + 0.0722 * b; };
const canvas = document.createElement('canvas').getContext('2d', { willReadFrequently: true });
const colour = text => { canvas.clearRect(0, 0, 1, 1); canvas.fillStyle = text; canvas.fillRect(0, 0, 1, 1);
  return [...canvas.getImageData(0, 0, 1, 1).data]; };
const mix = (over, under, part) => over.map((each, place) => part * each + (1 - part) * under[place]);
const behind = node => { if (!node) return colour('canvas').slice(0, 3);
  const [r, g, b, a] = colour(getComputedStyle(node).backgroundColor);
  return a === 255 ? [r, g, b] : mix([r, g, b], behind(node.parentElement), a / 255); };
const fadedBy = node => { for (let at = node; at; at = at.parentElement) { const part = Number(getComputedStyle(at).opacity); if (part < 1) return [part, at]; }
  return [1, node]; };
const bad = [];
for (const node of document.querySelectorAll('body *')) {
  const own = [...node.childNodes].some(each => each.nodeType === 3 && each.textContent.trim());
  if (!own || !node.checkVisibility() || node.matches('option, :disabled')) continue;
  const [r, g, b, a] = colour(getComputedStyle(node).color);
  if (a < 255) continue;
  const [part, group] = fadedBy(node), base = behind(group.parentElement), back = behind(node);
  const pair = [light(mix([r, g, b], base, part)), light(mix(back, base, part))].sort((x, y) => y - x), ratio = (pair[0] + 0.05) / (pair[1] + 0.05);
  if (ratio < 4.5) bad.push([node.tagName, node.className, node.textContent.slice(0, 30), ratio.toFixed(2)]);
}
return bad;
'''
STATES = {'as it is': [], 'under the mouse': ['hover'], 'with the focus': ['focus', 'focus-visible'], 'as it is pressed': ['hover', 'active', 'focus']}
PRESSED = 'button:not(.slot), a, summary, .column:first-child .slot:nth-of-type(-n + 9)'


def states_of(page, selector, states):
    """Has the browser hold all these in some states of the mouse and of keys."""
    root = page.devtools('DOM.getDocument', depth=0)['root']['nodeId']
    for node in page.devtools('DOM.querySelectorAll', nodeId=root, selector=selector)['nodeIds']:
        page.devtools('CSS.forcePseudoState', nodeId=node, forcedPseudoClasses=states)


def names_and_colours(page, name):
    """What a screen reader is given has names, and text stands out from what is behind it, in light and dark, whatever is at it."""
    tree = page.devtools('Accessibility.getFullAXTree')['nodes']
    nameless = [node['role']['value'] for node in tree if not node['ignored'] and node['role']['value'] in
                ('button', 'textbox', 'combobox', 'link', 'DateTime', 'Date', 'InputTime', 'dialog', 'alertdialog', 'group', 'region', 'navigation')
                and not re.search(r'\w', node.get('name', {}).get('value') or '')]
    check(f'{name}: all has a name', nameless == [], nameless)
    for domain in ('DOM', 'CSS'):
        page.devtools(domain + '.enable')
    for scheme in ('light', 'dark'):
        page.devtools('Emulation.setEmulatedMedia', features=[{'name': 'prefers-color-scheme', 'value': scheme}])
        for state, classes in STATES.items():
            states_of(page, PRESSED, classes)
            time.sleep(0.1)
            bad = page.run(CONTRAST)
            check(f'{name}: text stands out, {scheme}, {state}', bad == [], bad)
        states_of(page, PRESSED, [])
        if scheme == 'dark':
            page.picture_of(f'dark-{name}')
    page.devtools('CSS.disable')
    page.devtools('Emulation.setEmulatedMedia', features=[])
