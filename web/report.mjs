// What is wrong, with its places: the library's report, and the browser's messages.
import { element } from './element.mjs';
import { itemAt, readable } from './made.mjs';
import { placeText } from './declared.mjs';

const PLACE = /^(\s*--> )(.+?)(?::(\d+):(\d+))?$/;

// The places of the library's report: `[{ path, line, message }]`, with the report's first line as the message.
export function faultsOf(report) {
    const lines = report.split('\n');
    const found = lines.map(line => PLACE.exec(line)).filter(match => match?.[3]);
    return found.map(([, , path, line]) => ({ path, line: Number(line), message: lines[0] }));
}

// The library's report, whose places are buttons.
export function libraryReport(report, go) {
    return report.trimEnd().split('\n').flatMap(line => {
        const [, arrow, path, number, column] = PLACE.exec(line) ?? [];
        if (path === undefined) return [`${line}\n`];
        const place = { path, lines: number ? [Number(number)] : [] };
        const text = number ? `${path}:${number}:${column}` : path;
        return [arrow, element('button', { className: 'place', onclick: () => go(place) }, text), '\n'];
    });
}

// A message of the browser over the made text: with its item and that item's place. Which line of the item's source is meant isn't
// known, as there is no map from the made text to its sources.
export function placed({ type, line, column, message }, items, placeOf) {
    const found = line ? itemAt(items, line) : undefined;
    const place = found?.kind ? placeOf(found) : null;
    const code = found ? found.text.split('\n')[line - found.line] : '';
    return { type, line, column, message, item: found, place, code };
}

// The faults of messages of the browser, at the declarations of their items where these are known.
export function faultsOfMessages(messages) {
    const known = messages.filter(({ type, place }) => type === 'error' && place?.lines.length === 1);
    return known.map(({ place, item, message }) => ({ path: place.path, line: place.lines[0], message: `in ${item.kind} ${item.name}: ${message}` }));
}

function browserMessage({ type, line, column, message, item, place, code }, go) {
    const parts = [`${type}: ${readable(message)}\n`];
    if (item?.kind) {
        const what = `  in ${item.kind} ${item.module ? `${item.module}::` : ''}${item.name}`;
        parts.push(what, ...place ? [' (', element('button', { className: 'place', onclick: () => go(place) }, placeText(place)), ')'] : [], '\n');
    }
    if (line) parts.push(`  made text, line ${line}:${column}: ${readable(code).trim()}\n`);
    return parts;
}

// The browser's messages in words, whose places are buttons.
export function browserReport(messages, refused, go) {
    const head = refused ? 'The browser refuses the made text. The picture is of the last one that it took.\n' : 'The browser takes the made text, and says:\n';
    return [head, ...messages.flatMap(message => browserMessage(message, go))];
}
