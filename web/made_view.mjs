// Shows a made text by its items: each with the numbers of its lines, its module and its place there, in the colour of its file.
import { element } from './element.mjs';
import { placeText } from './declared.mjs';

const MOST_ITEMS = 4000;
const MOST_BYTES = 1 << 20; // a longer text is shown without marks

// The colour of a file by its number: neighbours differ.
export const hue = index => Math.round(index * 137.5) % 360;

const numbers = ({ line, count }) => Array.from({ length: count }, (_, i) => line + i).join('\n');

const labelOf = ({ module }, place) => place ? `${module ?? 'shader'} · ${placeText(place)}` : module ?? '';

export class MadeView {
    // `go` is called with the place of an item.
    constructor(place, go) {
        Object.assign(this, { place, go });
        this.clear();
    }

    // Forgets what is shown, so that nothing of the next text is marked as new.
    clear() {
        this.parts = new Map();
    }

    part(item, place, colour) {
        const title = place?.lines.length ? `Go to ${placeText(place)}` : 'Its line isn\'t known';
        const label = labelOf(item, place);
        const lines = element('pre', { className: 'lines', ariaHidden: 'true' });
        const from = element('button', { className: 'from', title, disabled: !place }, label);
        const code = element('pre', { className: 'code' }, item.text);
        const part = element('div', { className: 'item', style: { '--hue': String(colour) } }, from, lines, code);
        from.onclick = () => this.go(place);
        code.onclick = () => { if (place && getSelection().isCollapsed) this.go(place); };
        return { item, part, lines, label, colour };
    }

    // The part of an item from before, if it says the same, or a new one.
    kept(kept, item, place, colour) {
        if (kept?.label !== labelOf(item, place) || kept.colour !== colour) return this.part(item, place, colour);
        return { ...kept, item };
    }

    // Shows items, each with its place or null and the number of its file's colour. Returns the items that weren't there before, and those
    // that are gone.
    show(items, placeOf, colourOf) {
        const before = this.parts;
        const isShort = items.length <= MOST_ITEMS && items.reduce((sum, { text }) => sum + text.length, 0) <= MOST_BYTES;
        const make = item => isShort ? this.kept(before.get(item.text), item, placeOf(item), colourOf(item)) : { item };
        this.parts = new Map(items.map(item => [item.text, make(item)]));
        if (isShort) this.paint(before);
        else this.place.replaceChildren(element('p', {}, 'The text is too long for marks.'), element('pre', {}, items.map(({ text }) => text).join('\n\n')));
        const apart = (some, others) => [...some.values()].map(({ item }) => item).filter(({ text }) => !others.has(text));
        return before.size ? { fresh: apart(this.parts, before), gone: apart(before, this.parts) } : { fresh: [], gone: [] };
    }

    // Puts the parts in their order, with the numbers of their lines. Those that are there already aren't touched, so that the browser doesn't
    // lay them out again.
    paint(before) {
        const parts = [...this.parts.values()];
        const wanted = new Set(parts.map(({ part }) => part));
        for (const old of [...this.place.children]) if (!wanted.has(old)) old.remove();
        parts.forEach(({ item, part, lines }, i) => {
            if (lines.textContent !== numbers(item)) lines.textContent = numbers(item);
            part.classList.remove('faulty');
            part.classList.toggle('fresh', before.size > 0 && !before.has(item.text));
            if (this.place.children[i] !== part) this.place.insertBefore(part, this.place.children[i] ?? null);
        });
    }

    // The text that is shown.
    text() {
        return `${[...this.parts.keys()].join('\n\n')}\n`;
    }

    // Marks the items that the browser refuses.
    mark(items) {
        for (const { text } of items) this.parts.get(text)?.part?.classList.add('faulty');
    }
}
