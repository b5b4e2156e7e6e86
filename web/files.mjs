// The files of a project as tabs, and what is done with them.
import { element } from './element.mjs';
import { hue } from './made_view.mjs';

// A path like this one that no file has.
export function freePath(files, path) {
    const taken = new Set(files.map(file => file.path));
    const [, stem, end = ''] = /^(.*?)(\.[^.]*)?$/s.exec(path);
    for (let i = 2, made = path; ; i++) {
        if (!taken.has(made)) return made;
        made = `${stem}${i}${end}`;
    }
}

export class Tabs {
    // `show` is called with the number of a file.
    constructor(place, show) {
        Object.assign(this, { place, show, seen: '' });
        place.onkeydown = event => this.key(event);
    }

    // Arrows, Home and End go through the tabs.
    key(event) {
        const count = this.place.children.length;
        const to = { ArrowLeft: this.shown - 1, ArrowRight: this.shown + 1, Home: 0, End: count - 1 }[event.key];
        if (to === undefined || event.altKey) return;
        event.preventDefault();
        this.show((to + count) % count);
        this.place.children[this.shown].focus();
    }

    tab({ path }, i, { top }, faulty) {
        const isShown = i === this.shown;
        const className = `${i === top ? 'top' : ''} ${faulty.has(path) ? 'faulty' : ''}`;
        const title = `${i === top ? 'the shader' : 'a module'}${faulty.has(path) ? ', with an error' : ''}`;
        const properties = { role: 'tab', tabIndex: isShown ? 0 : -1, ariaSelected: String(isShown), className, title };
        const tab = element('button', { ...properties, style: { '--hue': String(hue(i)) }, onclick: () => this.show(i) }, path);
        tab.setAttribute('aria-controls', 'editor');
        return tab;
    }

    // Shows the tabs of a project, if they aren't there yet, with marks at the paths of faulty files.
    paint(project, shown, faulty) {
        const seen = JSON.stringify([project.files.map(({ path }) => path), project.top, shown, [...faulty]]);
        if (seen === this.seen) return;
        this.seen = seen;
        this.shown = shown;
        this.place.replaceChildren(...project.files.map((file, i) => this.tab(file, i, project, faulty)));
        this.place.children[shown].scrollIntoView({ block: 'nearest', inline: 'nearest' });
    }
}
