// A step that runs for one value at a time: of the values that come meanwhile it runs for the last alone.
export function latest(step) {
    let runs = false, waiting = null;
    return async value => {
        waiting = { value };
        if (runs) return;
        runs = true;
        try {
            while (waiting) {
                const { value: next } = waiting;
                waiting = null;
                await step(next);
            }
        } finally {
            runs = false;
        }
    };
}
