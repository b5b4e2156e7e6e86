"""Measures `yettuvam build` over WGSL, and prints tables in Markdown.

    wgsl.py PROGRAM [RUNS [SIZES]]

PROGRAM is crates/yettuvam/out/yettuvam once it is built. RUNS is the number of runs of each command (3), of two where one takes
more than two seconds; SIZES are numbers of copies ('1 10 100'). Seconds are those of the processor, user and system, the least of
the runs. Memory is the most that was resident."""
import os
import sys
import tempfile

PROGRAM = os.path.abspath(sys.argv[1])
RUNS = int(sys.argv[2]) if len(sys.argv) > 2 else 3
SIZES = [int(size) for size in (sys.argv[3] if len(sys.argv) > 3 else "1 10 100").split()]

# The items of one module of an engine's kind; `@` stands for what makes its names its own.
ITEMS = """
struct Light@ {
    position: vec3<f32>,
    range: f32,
    color: vec4<f32>,
    cone: vec2<f32>,
}

const SAMPLES@ = 8u;
const BIAS@: f32 = 0.0025;

fn falloff@(light: Light@, at: vec3<f32>) -> f32 {
    let away = distance(light.position, at) / light.range;
    return clamp(1.0 - away * away * away * away, 0.0, 1.0) / (away * away + 0.0001);
}

fn hash@(seed: vec2<u32>) -> f32 {
    var x = seed.x * 1664525u + 1013904223u;
    x ^= seed.y + 0x9e3779b9u + (x << 6u) + (x >> 2u);
    return f32(x & 0xffffffu) / 16777216.0;
}

fn blurred@(image: texture_2d<f32>, with_sampler: sampler, uv: vec2<f32>, step: vec2<f32>) -> vec4<f32> {
    var sum = vec4<f32>();
    for (var i = 0u; i < SAMPLES@; i++) {
        let offset = (f32(i) - 3.5) * step;
        if abs(offset.x) + abs(offset.y) > 4.0 {
            continue;
        }
        sum += textureSampleLevel(image, with_sampler, uv + offset, 0.0);
    }
    return sum / f32(SAMPLES@);
}

fn lit@(light: Light@, at: vec3<f32>, normal: vec3<f32>) -> vec3<f32> {
    let direction = normalize(light.position - at);
    let power = max(dot(normal, direction), 0.0) * falloff@(light, at);
    switch u32(light.cone.x) {
        case 0u: { return light.color.rgb * power; }
        case 1u, 2u: { return light.color.rgb * power * 0.5; }
        default: { return vec3<f32>(BIAS@) + light.color.rgb * power * hash@(vec2<u32>(at.xy)); }
    }
}
"""

HEAD = "@group(0) @binding(0) var<storage, read_write> out: array<vec4<f32>>;\n"
MAIN = "@compute @workgroup_size(64)\nfn main(@builtin(global_invocation_id) id: vec3<u32>) {\n    let at = vec3<f32>(id);\n    var sum = vec3<f32>();\n"


def call(path, name):
    light = f"{path}Light{name}(vec3<f32>(1.0), 2.0, vec4<f32>(1.0), vec2<f32>(3.0))"
    return f"    sum += {path}lit{name}({light}, at, vec3<f32>(0.0, 1.0, 0.0));\n"


def write(name, text):
    with open(name, "w", encoding="utf-8") as file:
        file.write(text)


def one_text(count):
    """One text with copies of the items under other names."""
    body = "".join(ITEMS.replace("@", str(i)) for i in range(count))
    write("top.wgsl", HEAD + body + MAIN + "".join(call("", i) for i in range(count)) + "    out[id.x] = vec4<f32>(sum, 1.0);\n}\n")
    return ["top.wgsl"]


def module(number, imports):
    uses = "".join(call(f"m{other}::", "") for other in imports)
    text = f"#define_import_path m{number}\n" + "".join(f"#import m{other}\n" for other in imports) + ITEMS.replace("@", "")
    return text + "fn all(at: vec3<f32>) -> vec3<f32> {\n    var sum = vec3<f32>();\n" + uses + "    return sum;\n}\n"


def modules(count, imports_of):
    for number in range(count):
        write(f"m{number}.wgsl", module(number, imports_of(number)))
    write("top.wgsl", "#import m0\n" + HEAD + MAIN + call("m0::", "") + "    sum += m0::all(at);\n    out[id.x] = vec4<f32>(sum, 1.0);\n}\n")
    return ["top.wgsl", *[f"m{number}.wgsl" for number in range(count)]]


def tree(count):
    """Modules of which each imports two others."""
    return modules(count, lambda number: [other for other in (2 * number + 1, 2 * number + 2) if other < count])


def chain(count):
    """Modules of which each imports the next."""
    return modules(count, lambda number: [number + 1] if number + 1 < count else [])


def run_once(words, out):
    actions = [(os.POSIX_SPAWN_OPEN, 1, out, os.O_WRONLY | os.O_CREAT | os.O_TRUNC, 0o600)]
    process = os.posix_spawn(PROGRAM, [PROGRAM, "build", *words], os.environ, file_actions=actions)
    _, status, usage = os.wait4(process, 0)
    return status, usage.ru_utime + usage.ru_stime, usage.ru_maxrss * 1024


def measure(words):
    runs = [run_once(words, "made")]
    while len(runs) < (RUNS if runs[0][1] <= 2 else min(RUNS, 2)):
        runs.append(run_once(words, "made"))
    return max(run[0] for run in runs), min(run[1] for run in runs), max(run[2] for run in runs)


def table(title, kind, counts):
    print(f"| {title} | modules | MB | seconds | MB a second | ms a module | MB at the peak |")
    print("|---|---|---|---|---|---|---|")
    for count in counts:
        with tempfile.TemporaryDirectory() as folder:
            os.chdir(folder)
            words = kind(count)
            size = sum(os.path.getsize(name) for name in words)
            status, seconds, memory = measure(words)
            os.chdir("/")
        told = f"{seconds:.4f} | {size / 1e6 / max(seconds, 1e-6):.2f} | {seconds * 1000 / len(words):.3f}" if status == 0 else f"status {status} | - | -"
        print(f"| {kind.__name__.replace('_', ' ')} | {len(words)} | {size / 1e6:.3f} | {told} | {memory / 1e6:.1f} |", flush=True)
    print()


table("items in one text", one_text, SIZES)
table("a tree", tree, [20 * size for size in SIZES if size <= 100])
table("a chain", chain, [4 * size for size in SIZES])
