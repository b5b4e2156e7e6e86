// Draws a made text by WebGPU: its first vertex and its first fragment entry point, three corners without buffers. Its uniform at
// group 0 and binding 0, if it has one, is 32 bytes: the size of the picture in pixels (vec2f), the time in seconds (f32), four bytes
// without meaning, and the place of the pointer in pixels (vec2f).
const UNIFORM_BYTES = 32;

// Why a text without one of the entry points isn't drawn, or null.
const missing = entries => ['vertex', 'fragment'].filter(stage => !entries.some(entry => entry.stage === stage)).map(stage => `it has no @${stage} entry point`)[0] ?? null;

// Why bindings can't be given by this page, or null.
function notGiven(bindings) {
    const other = bindings.find(({ group, binding }) => group !== 0 || binding !== 0);
    return other ? `it has a binding at @group(${other.group}) @binding(${other.binding}), and this page gives only the uniform at 0, 0` : null;
}

export class View {
    // Says in an error why nothing can be drawn.
    static async on(canvas) {
        if (!navigator.gpu) throw new Error('this browser has no WebGPU');
        const adapter = await navigator.gpu.requestAdapter();
        if (!adapter) throw new Error('the browser found no graphics adapter');
        return new View(canvas, await adapter.requestDevice());
    }

    constructor(canvas, device) {
        const format = navigator.gpu.getPreferredCanvasFormat();
        const context = canvas.getContext('webgpu');
        context.configure({ device, format });
        Object.assign(this, { canvas, device, format, context, pointer: [0, 0], drawn: null, busy: false });
        this.uniform = device.createBuffer({ size: UNIFORM_BYTES, usage: GPUBufferUsage.UNIFORM | GPUBufferUsage.COPY_DST });
        canvas.addEventListener('pointermove', event => {
            const { width, height } = canvas.getBoundingClientRect();
            this.pointer = [event.offsetX * canvas.width / width, event.offsetY * canvas.height / height];
        });
    }

    // Takes a text to draw from now on, with its entry points and bindings. Returns the browser's messages, each with a line of the text
    // (0: none); whether it refuses the text; and why nothing of it is drawn, or null. What isn't drawn leaves what was drawn before.
    async take(code, entries, bindings) {
        const [module] = await this.tried(() => this.device.createShaderModule({ code }));
        const info = await module.getCompilationInfo();
        const messages = info.messages.map(({ type, lineNum, linePos, message }) => ({ type, line: lineNum, column: linePos, message }));
        if (messages.some(({ type }) => type === 'error')) return { messages, refused: true, why: null };
        const why = missing(entries);
        if (why) return { messages, refused: false, why };
        const fault = await this.prepare(module, entries);
        if (fault && notGiven(bindings)) return { messages, refused: false, why: notGiven(bindings) };
        if (fault) messages.push({ type: 'error', line: 0, column: 0, message: fault });
        return { messages, refused: fault !== null, why: null };
    }

    // Makes what draws a module's entry points, and draws a pixel with it. Returns what the browser says against it, or null.
    async prepare(module, entries) {
        const { device, format } = this;
        const name = stage => entries.find(entry => entry.stage === stage).written;
        let pipeline;
        try {
            pipeline = await device.createRenderPipelineAsync({
                layout: 'auto',
                vertex: { module, entryPoint: name('vertex') },
                fragment: { module, entryPoint: name('fragment'), targets: [{ format }] },
            });
        } catch (error) {
            return error.message;
        }
        const [group, refusal] = await this.tried(() => this.group(pipeline));
        const drawn = { pipeline, group: refusal ? null : group };
        const pixel = device.createTexture({ size: [1, 1], format, usage: GPUTextureUsage.RENDER_ATTACHMENT });
        const [, fault] = await this.tried(() => this.draw(0, pixel, drawn));
        pixel.destroy();
        if (fault) return refusal ?? fault;
        this.drawn = drawn;
        return null;
    }

    // The result of a step, and what the browser says against it, or null.
    async tried(step) {
        this.device.pushErrorScope('validation');
        const result = step();
        return [result, (await this.device.popErrorScope())?.message ?? null];
    }

    group(pipeline) {
        const entries = [{ binding: 0, resource: { buffer: this.uniform } }];
        return this.device.createBindGroup({ layout: pipeline.getBindGroupLayout(0), entries });
    }

    // Draws the text that was taken last into the canvas. The view is busy until the picture is done.
    async frame(seconds) {
        this.busy = true;
        this.draw(seconds, this.context.getCurrentTexture());
        await this.device.queue.onSubmittedWorkDone().catch(() => {});
        this.busy = false;
    }

    // Draws the text that was taken last into a texture of the canvas's size.
    draw(seconds, texture, drawn = this.drawn) {
        const { canvas, device } = this;
        device.queue.writeBuffer(this.uniform, 0, new Float32Array([canvas.width, canvas.height, seconds, 0, ...this.pointer, 0, 0]));
        const encoder = device.createCommandEncoder();
        const pass = encoder.beginRenderPass({
            colorAttachments: [{ view: texture.createView(), loadOp: 'clear', storeOp: 'store' }],
        });
        pass.setPipeline(drawn.pipeline);
        if (drawn.group) pass.setBindGroup(0, drawn.group);
        pass.draw(3);
        pass.end();
        device.queue.submit([encoder.finish()]);
    }

    // The bytes of a picture, red, green, blue and alpha of each pixel.
    async picture(seconds) {
        const { canvas: { width, height }, device, format } = this;
        const usage = GPUTextureUsage.RENDER_ATTACHMENT | GPUTextureUsage.COPY_SRC;
        const texture = device.createTexture({ size: [width, height], format, usage });
        this.draw(seconds, texture);
        const buffer = device.createBuffer({ size: 4 * width * height, usage: GPUBufferUsage.MAP_READ | GPUBufferUsage.COPY_DST });
        const encoder = device.createCommandEncoder();
        encoder.copyTextureToBuffer({ texture }, { buffer, bytesPerRow: 4 * width }, [width, height]);
        device.queue.submit([encoder.finish()]);
        await buffer.mapAsync(GPUMapMode.READ);
        const bytes = new Uint8ClampedArray(buffer.getMappedRange().slice(0));
        if (format === 'bgra8unorm') for (let i = 0; i < bytes.length; i += 4) [bytes[i], bytes[i + 2]] = [bytes[i + 2], bytes[i]];
        texture.destroy();
        buffer.destroy();
        return bytes;
    }
}
