// What a made text offers to the program that draws with it: its entry points and its bindings.
import { element } from './element.mjs';
import { bindingsOf, entriesOf, readable } from './made.mjs';

function table(caption, heads, rows) {
    if (!rows.length) return [];
    const row = (name, cells) => element('tr', {}, ...cells.map(cell => element(name, name === 'th' ? { scope: 'col' } : {}, cell)));
    return [element('table', {}, element('caption', {}, caption), row('th', heads), ...rows.map(cells => row('td', cells)))];
}

const from = ({ module }) => module ?? 'shader';

// The tables of a made text's items.
export function tablesOf(items) {
    const entries = entriesOf(items).map(entry => [entry.stage, entry.written, readable(entry.size) || '–', from(entry)]);
    const bindings = bindingsOf(items).map(found => [
        String(found.group), String(found.binding), readable(found.written), found.space || 'handle', readable(found.type), from(found),
    ]);
    return [
        ...table('Entry points', ['stage', 'name', 'workgroup', 'from'], entries),
        ...table('Bindings', ['group', 'binding', 'name', 'space', 'type', 'from'], bindings),
    ];
}
