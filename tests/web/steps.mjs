// What a check does in a page, in words of the page.
export const SECONDS = 180;

export const REST = 'document.body?.dataset.rest === "true"';
export const REPORT = 'document.getElementById("report").textContent';
export const BUILT = 'document.getElementById("built").textContent';
export const MADE = 'document.getElementById("made").textContent';
export const TEXT = 'document.querySelector("#editor textarea:not([hidden])")';
export const PATH = 'document.getElementById("path").value';
export const FAULTY_TABS = '[...document.querySelectorAll("#tabs .faulty")].map(tab => tab.textContent).join()';
export const MARKS = '[...document.querySelectorAll("#editor .numbers b")].map(mark => mark.textContent).join()';
export const TAB_COUNT = 'document.querySelectorAll("#tabs [role=tab]").length';
export const LINE = `${TEXT}.value.slice(${TEXT}.selectionStart, ${TEXT}.selectionEnd)`;

const quoted = JSON.stringify;

// A step that gives a field a value, as if it was typed.
export const set = (field, value, event = 'input') => `(() => {
    const field = ${field};
    field.value = ${value};
    field.dispatchEvent(new Event(${quoted(event)}));
})()`;

export const replaced = (from, to) => set(TEXT, `${TEXT}.value.replace(${quoted(from)}, ${quoted(to)})`);

export const click = selector => `document.querySelector(${quoted(selector)}).click()`;

export const showTab = path => `[...document.querySelectorAll("#tabs [role=tab]")].find(tab => tab.textContent === ${quoted(path)}).click()`;

// Puts the cursor after a part of the text.
export const cursorAfter = part => `(() => {
    const at = ${TEXT}.value.indexOf(${quoted(part)}) + ${part.length};
    ${TEXT}.focus();
    ${TEXT}.setSelectionRange(at, at);
})()`;

// Drops a file on the page.
export const drop = (name, text) => `(() => {
    const dataTransfer = new DataTransfer();
    dataTransfer.items.add(new File([${quoted(text)}], ${quoted(name)}));
    document.body.dispatchEvent(new DragEvent('drop', { dataTransfer, bubbles: true, cancelable: true }));
})()`;

// How much the picture at a time differs from the one of an address, or from nothing: the average difference of a byte, the part of the
// pixels that differ so that it is seen, and how many colours there are. Half the size, so that pictures are small files.
export const compared = (address, seconds = 1) => `(async () => {
    const { view } = await import('./page.mjs');
    const { width, height } = view.canvas;
    const whole = new OffscreenCanvas(width, height);
    whole.getContext('2d').putImageData(new ImageData(await view.picture(${seconds}), width, height), 0, 0);
    const small = new OffscreenCanvas(width / 2, height / 2);
    const paper = small.getContext('2d', { willReadFrequently: true });
    paper.drawImage(whole, 0, 0, width / 2, height / 2);
    const { data } = paper.getImageData(0, 0, width / 2, height / 2);
    const colours = new Set(new Uint32Array(data.buffer)).size;
    const png = async () => {
        const blob = await small.convertToBlob({ type: 'image/png' });
        return btoa(Array.from(new Uint8Array(await blob.arrayBuffer()), byte => String.fromCharCode(byte)).join(''));
    };
    const stored = ${quoted(address)} && await fetch(${quoted(address)});
    if (!stored || !stored.ok) return { colours, png: await png() };
    paper.drawImage(await createImageBitmap(await stored.blob()), 0, 0);
    const other = paper.getImageData(0, 0, width / 2, height / 2).data;
    let sum = 0, seen = 0;
    for (let i = 0; i < data.length; i += 4) {
        const differences = [0, 1, 2].map(k => Math.abs(data[i + k] - other[i + k]));
        sum += differences[0] + differences[1] + differences[2];
        if (Math.max(...differences) > 24) seen++;
    }
    return { colours, average: sum / (data.length / 4 * 3), seen: seen / (data.length / 4) };
})()`;

// Opens an address, and waits until the page has nothing to do. Time stands still, so that pictures take no time.
export async function open(browser, address) {
    await browser.go('about:blank');
    await browser.go(address);
    if (!await browser.until('document.body?.dataset.started', SECONDS)) return false;
    await browser.value('(() => { const plays = document.getElementById("plays"); if (!plays.disabled && plays.textContent === "Pause") plays.click(); })()');
    return browser.until(REST, SECONDS);
}

// Does a step, and waits until the page has nothing to do.
export async function after(browser, step) {
    await browser.value(step);
    return browser.until(REST, SECONDS);
}
