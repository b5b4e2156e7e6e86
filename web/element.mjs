// An element of the page with its properties and its children. Texts are never read as HTML.
export function element(name, { style = {}, ...properties }, ...children) {
    const made = Object.assign(document.createElement(name), properties);
    for (const [key, value] of Object.entries(style)) made.style.setProperty(key, value);
    made.append(...children);
    return made;
}
