// The editor: a text area for each file, so that each keeps what can be undone, with the numbers of its lines beside it. Numbers are
// made for the lines in sight alone, so that long texts cost no more than short ones.
import { element } from './element.mjs';

const LINE = 19; // pixels of a line, as in style.css
const PADDING = 8; // pixels above the first line, as in style.css
const INDENT = '    ';

// The number of line ends in a text before a place.
function lineEnds(text, end = text.length) {
    let count = 0;
    for (let at = text.indexOf('\n'); at !== -1 && at < end; at = text.indexOf('\n', at + 1)) count++;
    return count;
}

// The place in a text where a line begins, with lines from 1.
function lineStart(text, line) {
    let at = 0;
    for (let i = 1; i < line; i++) {
        const next = text.indexOf('\n', at);
        if (next === -1) break;
        at = next + 1;
    }
    return at;
}

export class Editor {
    // `changed` is called with the file whose text has changed.
    constructor(place, changed) {
        this.numbers = element('div', { className: 'numbers', ariaHidden: 'true' });
        this.bands = element('div', { className: 'bands', ariaHidden: 'true' });
        this.stack = element('div', { className: 'stack' }, this.bands);
        Object.assign(this, { changed, areas: new WeakMap(), faults: [], lines: 1 });
        place.append(this.numbers, this.stack);
        new ResizeObserver(() => this.paint()).observe(place);
    }

    // The text area of a file.
    area(file) {
        const kept = this.areas.get(file);
        if (kept) return kept;
        const made = element('textarea', { value: file.text, spellcheck: false, autocapitalize: 'off', wrap: 'off' });
        made.setAttribute('autocomplete', 'off');
        made.setAttribute('aria-describedby', 'report');
        made.oninput = () => {
            file.text = made.value;
            if (made === this.shown) this.count();
            this.changed(file);
        };
        made.onscroll = () => this.paint();
        made.onkeydown = event => this.key(event);
        this.areas.set(file, made);
        this.stack.append(made);
        return made;
    }

    // Tab indents. After Escape it leaves the text, as it does with Shift.
    key(event) {
        if (event.key === 'Tab' && !this.leaves && !event.shiftKey && !event.altKey && !event.ctrlKey) {
            event.preventDefault();
            document.execCommand('insertText', false, INDENT);
        }
        if (event.key !== 'Tab') this.leaves = event.key === 'Escape';
        else this.leaves = false;
    }

    show(file) {
        const had = this.shown && this.shown === document.activeElement;
        if (this.shown) this.shown.hidden = true;
        this.shown = this.area(file);
        this.shown.hidden = false;
        this.shown.ariaLabel = `Text of ${file.path}`;
        if (had) this.shown.focus();
        this.count();
    }

    // Forgets the text of a file.
    forget(file) {
        this.areas.get(file)?.remove();
        this.areas.delete(file);
    }

    // Forgets the texts of all files.
    clear() {
        this.areas = new WeakMap();
        this.shown = null;
        this.stack.replaceChildren(this.bands);
    }

    count() {
        this.lines = lineEnds(this.shown.value) + 1;
        this.paint();
    }

    // Marks lines of the shown file: `[{ line, message }]`.
    mark(faults) {
        this.faults = faults;
        this.shown.ariaInvalid = String(faults.length > 0);
        this.paint();
    }

    // Shows the numbers of the lines in sight, and the marks.
    paint() {
        if (!this.shown) return;
        const { scrollTop, clientHeight } = this.shown;
        const first = Math.max(Math.floor((scrollTop - PADDING) / LINE), 0);
        const last = Math.min(first + Math.ceil(clientHeight / LINE) + 1, this.lines);
        const messages = new Map(this.faults.map(({ line, message }) => [line, message]));
        const top = line => ({ top: `${PADDING + (line - 1) * LINE - scrollTop}px` });
        const seen = Array.from({ length: Math.max(last - first, 0) }, (_, i) => first + i + 1);
        this.numbers.style.width = `${Math.max(String(this.lines).length, 3) + 2}ch`;
        this.numbers.replaceChildren(...seen.map(line => {
            const title = messages.get(line) ?? '';
            return element(messages.has(line) ? 'b' : 'span', { style: top(line), title }, String(line));
        }));
        this.bands.replaceChildren(...seen.filter(line => messages.has(line)).map(line => element('i', { style: top(line) })));
    }

    // Puts the cursor at a line of the shown file, and shows it.
    go(line) {
        const { value } = this.shown;
        const start = lineStart(value, line);
        const end = value.indexOf('\n', start);
        this.shown.focus({ preventScroll: true });
        this.shown.setSelectionRange(start, end === -1 ? value.length : end);
        this.shown.scrollTop = Math.max((line - 1) * LINE - this.shown.clientHeight / 3, 0);
        this.paint();
    }
}
