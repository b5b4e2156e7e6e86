// Draws a made text by WebGPU. Its uniforms, at group 0 and binding 0, are the size in pixels and the time in seconds.
export class Scene {
    static async load(text, width, height, format) {
        const adapter = await navigator.gpu?.requestAdapter();
        if (!adapter) throw new Error('no WebGPU');
        const device = await adapter.requestDevice();
        const code = await (await fetch(text)).text();
        const module = device.createShaderModule({ code });
        const pipeline = await device.createRenderPipelineAsync({
            layout: 'auto',
            vertex: { module },
            fragment: { module, targets: [{ format }] },
        });
        return new Scene(device, pipeline, width, height);
    }

    constructor(device, pipeline, width, height) {
        Object.assign(this, { device, pipeline, width, height });
        this.frame = device.createBuffer({ size: 16, usage: GPUBufferUsage.UNIFORM | GPUBufferUsage.COPY_DST });
        this.group = device.createBindGroup({
            layout: pipeline.getBindGroupLayout(0),
            entries: [{ binding: 0, resource: { buffer: this.frame } }],
        });
    }

    // Draws into a texture, in so many strips one after the other, so that none takes long without a graphics card.
    async draw(texture, time, strips) {
        this.device.queue.writeBuffer(this.frame, 0, new Float32Array([this.width, this.height, time, 0]));
        const rows = this.height / strips;
        for (let strip = 0; strip < strips; strip++) {
            const encoder = this.device.createCommandEncoder();
            const pass = encoder.beginRenderPass({
                colorAttachments: [{ view: texture.createView(), loadOp: strip ? 'load' : 'clear', storeOp: 'store' }],
            });
            pass.setPipeline(this.pipeline);
            pass.setBindGroup(0, this.group);
            pass.setScissorRect(0, strip * rows, this.width, rows);
            pass.draw(3);
            pass.end();
            this.device.queue.submit([encoder.finish()]);
            await this.device.queue.onSubmittedWorkDone();
        }
    }

    // The bytes of a picture, four for each pixel.
    async picture(time) {
        const { width, height, device } = this;
        const texture = device.createTexture({
            size: [width, height],
            format: 'rgba8unorm',
            usage: GPUTextureUsage.RENDER_ATTACHMENT | GPUTextureUsage.COPY_SRC,
        });
        await this.draw(texture, time, 9);
        const buffer = device.createBuffer({
            size: 4 * width * height,
            usage: GPUBufferUsage.MAP_READ | GPUBufferUsage.COPY_DST,
        });
        const encoder = device.createCommandEncoder();
        encoder.copyTextureToBuffer({ texture }, { buffer, bytesPerRow: 4 * width }, [width, height]);
        device.queue.submit([encoder.finish()]);
        await buffer.mapAsync(GPUMapMode.READ);
        return new Uint8ClampedArray(buffer.getMappedRange());
    }
}
