// Entry points of each stage, and what goes between them.
diagnostic(info, derivative_uniformity);

struct Corner {
    @builtin(position) @invariant at: vec4f,
    @location(0) colour: vec3f,
    @location(1) @interpolate(flat, either) label: vec2u,
    @location(3) @interpolate(linear, sample) near: f32,
}

struct Painted {
    @location(0) colour: vec4f,
    @location(1) weight: vec4f,
}

struct Camera {
    turn: mat4x4f,
    @align(16) eye: vec3f,
    @size(16) near: f32,
    lamps: array<vec4f, 3>,
}

@id(7) override quality: u32 = 3u;
override across: u32 = quality + 1u;
override bright = 1.5;
@group(0) @binding(0) var<uniform> camera: Camera;
@group(0) @binding(1) var<storage, read_write> spare: array<vec4f>;

@vertex
fn place(@location(0) at: vec3f, @location(1) colour: vec3f, @builtin(instance_index) instance: u32) -> Corner {
    return Corner(camera.turn * vec4f(at - camera.eye, 1.0), colour, vec2u(instance, quality), camera.near);
}

@fragment
fn paint(corner: Corner, @builtin(sample_index) index: u32) -> Painted {
    if corner.label.x == 0u && index > 2u {
        discard;
    }
    return Painted(vec4f(corner.colour * bright, 1.0), camera.lamps[corner.label.y % 3u]);
}

@compute @workgroup_size(across, 2)
fn fill(@builtin(global_invocation_id) id: vec3u) {
    if id.x < arrayLength(&spare) {
        spare[id.x] = vec4f(f32(quality));
    }
}
