"""Writes the fifty modules of this project, its shader and its description: make.py FOLDER"""
import json
import os
import sys

COUNT = 50
folder = sys.argv[1]


def write(name, text):
    with open(os.path.join(folder, name), 'w', encoding='utf-8') as file:
        file.write(text)


def spot(number):
    return f"""#define_import_path spot{number}
#import spots::glow

const PLACE = vec2f({(number * 37 % 100) / 50 - 1:.2f} * 1.7, {(number * 61 % 100) / 50 - 1:.2f});
const COLOUR = vec3f({number % 5 / 4:.2f}, {number % 7 / 6:.2f}, {number % 3 / 2:.2f});

fn light(at: vec2f, time: f32) -> vec3f {{
    let moved = PLACE + 0.1 * vec2f(sin(time + {number}.0), cos(0.7 * time + {number}.0));
    return COLOUR * glow(distance(at, moved));
}}
"""


shader = '#import screen::{corner_of, place_of, screen}\n' + ''.join(f'#import spot{i}\n' for i in range(COUNT)) + """
@vertex
fn corner(@builtin(vertex_index) index: u32) -> @builtin(position) vec4f {
    return corner_of(index);
}

@fragment
fn pixel(@builtin(position) at: vec4f) -> @location(0) vec4f {
    let here = place_of(at.xy);
    var sum = vec3f();
""" + ''.join(f'    sum += spot{i}::light(here, screen.time);\n' for i in range(COUNT)) + """    return vec4f(sum, 1.0);
}
"""
names = [f'spot{i}.wgsl' for i in range(COUNT)]
for i, name in enumerate(names):
    write(name, spot(i))
write('shader.wgsl', shader)
write('spots.wgsl', '#define_import_path spots\n\n// The light at a distance.\nfn glow(away: f32) -> f32 {\n    return 0.004 / (away * away + 0.004);\n}\n')
write('project.json', json.dumps({
    'title': 'One change among fifty modules',
    'note': 'Change COLOUR in any of the fifty modules: the whole shader is made again at each key.',
    'top': 'shader.wgsl',
    'files': ['shader.wgsl', 'spots.wgsl', 'screen.wgsl', *names],
}, indent=4) + '\n')
