struct RayX_naga_oil_mod_XONRWK3TFHI5GM4TBNVSQX {
    start: vec3f,
    direction: vec3f,
}

struct FrameX_naga_oil_mod_XONRWK3TFHI5GM4TBNVSQX {
    size: vec2f,
    time: f32,
}

struct LightX_naga_oil_mod_XONRWK3TFHI5GY2LHNB2AX {
    direction: vec3f,
    colour: vec3f,
}

const PIX_naga_oil_mod_XONRWK3TFHI5G2YLUNAX = 3.14159265;

const TAUX_naga_oil_mod_XONRWK3TFHI5G2YLUNAX = 2.0 * PIX_naga_oil_mod_XONRWK3TFHI5G2YLUNAX;

const TWISTX_naga_oil_mod_XONRWK3TFHI5G2YLUNAX = mat2x2f(1.6, 1.2, -1.2, 1.6);

const SEAX_naga_oil_mod_XONRWK3TFHI5HIZLSOJQWS3QX = 0.18;

const FARX_naga_oil_mod_XONRWK3TFHI5HIZLSOJQWS3QX = 14.0;

const HIGHESTX_naga_oil_mod_XONRWK3TFHI5HIZLSOJQWS3QX = 1.5;

const THINX_naga_oil_mod_XONRWK3TFHI5GM33HX = 7.0;

@group(0) @binding(0) var<uniform> frameX_naga_oil_mod_XONRWK3TFHI5GM4TBNVSQX: FrameX_naga_oil_mod_XONRWK3TFHI5GM4TBNVSQX;

fn ray_ofX_naga_oil_mod_XONRWK3TFHI5GM4TBNVSQX(pixel_1: vec2f) -> RayX_naga_oil_mod_XONRWK3TFHI5GM4TBNVSQX {
    let at = (2.0 * pixel_1 - frameX_naga_oil_mod_XONRWK3TFHI5GM4TBNVSQX.size) / frameX_naga_oil_mod_XONRWK3TFHI5GM4TBNVSQX.size.y;
    let sway = 0.03 * sin(frameX_naga_oil_mod_XONRWK3TFHI5GM4TBNVSQX.time * TAUX_naga_oil_mod_XONRWK3TFHI5G2YLUNAX / 20.0);
    let forward = normalize(vec3f(0.12 + sway, 0.03, 1.0));
    let right = normalize(cross(vec3f(0.0, 1.0, 0.0), forward));
    let up = cross(forward, right);
    return RayX_naga_oil_mod_XONRWK3TFHI5GM4TBNVSQX(vec3f(0.0, 0.46, -1.2), normalize(at.x * right - at.y * up + 2.2 * forward));
}

fn hashX_naga_oil_mod_XONRWK3TFHI5G2YLUNAX(at: vec2i) -> f32 {
    let mixed = bitcast<vec2u>(at) * vec2u(0x9e3779b1u, 0x85ebca77u);
    var bits = mixed.x ^ (mixed.y << 13u) ^ (mixed.y >> 19u);
    bits = (bits ^ (bits >> 15u)) * 0x2c1b3c6du;
    bits = (bits ^ (bits >> 12u)) * 0x297a2d39u;
    return f32((bits ^ (bits >> 15u)) >> 8u) / 16777215.0;
}

fn squareX_naga_oil_mod_XONRWK3TFHI5G2YLUNAX(x: f32) -> f32 {
    return x * x;
}

fn lampX_naga_oil_mod_XONRWK3TFHI5GY2LHNB2AX() -> LightX_naga_oil_mod_XONRWK3TFHI5GY2LHNB2AX {
    return LightX_naga_oil_mod_XONRWK3TFHI5GY2LHNB2AX(normalize(vec3f(-0.44, 0.21, 0.86)), vec3f(3.6, 2.5, 1.5));
}

fn developed(colour: vec3f, pixel_1: vec2f) -> vec3f {
    let soft = colour * (2.51 * colour + 0.03) / (colour * (2.43 * colour + 0.59) + 0.14);
    let at = pixel_1 / frameX_naga_oil_mod_XONRWK3TFHI5GM4TBNVSQX.size - 0.5;
    return pow(saturate(soft), vec3f(1.0 / 2.2)) * (1.0 - 0.35 * dot(at, at));
}

fn smooth_noiseX_naga_oil_mod_XONRWK3TFHI5G433JONSQX(at: vec2f) -> vec3f {
    let cell = vec2i(floor(at));
    let f = fract(at);
    let ease = f * f * f * (f * (f * 6.0 - 15.0) + 10.0);
    let slope = 30.0 * f * f * (f * (f - 2.0) + 1.0);
    let a = hashX_naga_oil_mod_XONRWK3TFHI5G2YLUNAX(cell);
    let b = hashX_naga_oil_mod_XONRWK3TFHI5G2YLUNAX(cell + vec2i(1, 0));
    let c = hashX_naga_oil_mod_XONRWK3TFHI5G2YLUNAX(cell + vec2i(0, 1));
    let d = hashX_naga_oil_mod_XONRWK3TFHI5G2YLUNAX(cell + vec2i(1, 1));
    let both = a - b - c + d;
    return vec3f(a + (b - a) * ease.x + (c - a) * ease.y + both * ease.x * ease.y, slope * (vec2f(b - a, c - a) + both * ease.yx));
}

fn worn_layersX_naga_oil_mod_XONRWK3TFHI5G433JONSQX(at: vec2f, count: u32) -> f32 {
    var sum = 0.0;
    var height = 0.5;
    var place = at;
    var steep = vec2f();
    for (var i = 0u; i < count; i += 1) {
        let found = smooth_noiseX_naga_oil_mod_XONRWK3TFHI5G433JONSQX(place);
        steep += found.yz;
        sum += height * found.x / (1.0 + dot(steep, steep));
        height *= 0.5;
        place = TWISTX_naga_oil_mod_XONRWK3TFHI5G2YLUNAX * place;
    }
    return sum;
}

fn layersX_naga_oil_mod_XONRWK3TFHI5G433JONSQX(at: vec2f, count: u32) -> f32 {
    var sum = 0.0;
    var height = 0.5;
    var place = at;
    for (var i = 0u; i < count; i += 1) {
        sum += height * smooth_noiseX_naga_oil_mod_XONRWK3TFHI5G433JONSQX(place).x;
        height *= 0.5;
        place = TWISTX_naga_oil_mod_XONRWK3TFHI5G2YLUNAX * place;
    }
    return sum;
}

fn wave_normalX_naga_oil_mod_XONRWK3TFHI5G2YLUMVZGSYLMX(at: vec2f, way: f32) -> vec3f {
    let slow = vec2f(0.5, 0.2) * frameX_naga_oil_mod_XONRWK3TFHI5GM4TBNVSQX.time;
    let wide = smooth_noiseX_naga_oil_mod_XONRWK3TFHI5G433JONSQX(at * vec2f(9.0, 16.0) + slow).yz;
    let narrow = smooth_noiseX_naga_oil_mod_XONRWK3TFHI5G433JONSQX(at * vec2f(31.0, 47.0) - slow).yz;
    let rough = 0.035 / (1.0 + 0.5 * way);
    return normalize(vec3f(rough * wide.x + 0.6 * rough * narrow.x, 1.0, rough * wide.y + 0.6 * rough * narrow.y));
}

fn groundX_naga_oil_mod_XONRWK3TFHI5HIZLSOJQWS3QX(at: vec2f, count: u32) -> f32 {
    let shore = smoothstep(0.4, 4.2, at.y + 0.7 * abs(at.x - 0.6));
    return worn_layersX_naga_oil_mod_XONRWK3TFHI5G433JONSQX(at * 0.62 + vec2f(11.0, 4.3), count) * (0.34 + 1.55 * shore) - 0.07;
}

fn skyX_naga_oil_mod_XONRWK3TFHI5GY2LHNB2AX(direction: vec3f) -> vec3f {
    let sun = lampX_naga_oil_mod_XONRWK3TFHI5GY2LHNB2AX();
    let up = max(direction.y, 0.0);
    let near = saturate(dot(direction, sun.direction));
    var seen_1 = mix(vec3f(0.72, 0.68, 0.64), vec3f(0.13, 0.30, 0.62), pow(up, 0.42));
    seen_1 = mix(seen_1, vec3f(1.2, 0.74, 0.36), 0.75 * pow(near, 5.0) * (1.0 - up));
    let cloud = layersX_naga_oil_mod_XONRWK3TFHI5G433JONSQX(direction.xz / (up + 0.18) * 1.6 + vec2f(3.0, 1.0), 6u);
    seen_1 = mix(seen_1, vec3f(1.0, 0.93, 0.86) * (0.8 + 0.5 * pow(near, 8.0)), smoothstep(0.46, 0.78, cloud) * smoothstep(0.02, 0.3, up));
    return seen_1 + vec3f(1.4, 1.1, 0.7) * (smoothstep(0.9993, 0.9997, near) * 3.0 + 0.25 * pow(near, 350.0));
}

fn ground_colourX_naga_oil_mod_XONRWK3TFHI5G2YLUMVZGSYLMX(point: vec3f, normal: vec3f) -> vec3f {
    let fine = layersX_naga_oil_mod_XONRWK3TFHI5G433JONSQX(point.xz * 18.0, 4u);
    let rock = mix(vec3f(0.13, 0.115, 0.105), vec3f(0.26, 0.235, 0.21), fine);
    let grass = mix(vec3f(0.07, 0.095, 0.03), vec3f(0.15, 0.15, 0.05), layersX_naga_oil_mod_XONRWK3TFHI5G433JONSQX(point.xz * 5.0, 3u));
    var colour = mix(rock, grass, smoothstep(0.62, 0.82, normal.y + 0.1 * fine));
    colour = mix(vec3f(0.36, 0.30, 0.21), colour, smoothstep(0.012, 0.045, point.y - SEAX_naga_oil_mod_XONRWK3TFHI5HIZLSOJQWS3QX + 0.02 * fine));
    let snow = smoothstep(0.50, 0.66, point.y + 0.14 * fine) * smoothstep(0.48, 0.72, normal.y);
    return mix(colour, vec3f(0.72, 0.76, 0.82), snow);
}

fn way_to_groundX_naga_oil_mod_XONRWK3TFHI5HIZLSOJQWS3QX(ray: RayX_naga_oil_mod_XONRWK3TFHI5GM4TBNVSQX) -> f32 {
    var way = 0.02;
    for (var i = 0; i < 110 && way < FARX_naga_oil_mod_XONRWK3TFHI5HIZLSOJQWS3QX; i += 1) {
        let at = ray.start + way * ray.direction;
        if at.y > HIGHESTX_naga_oil_mod_XONRWK3TFHI5HIZLSOJQWS3QX && ray.direction.y > 0.0 {
            return FARX_naga_oil_mod_XONRWK3TFHI5HIZLSOJQWS3QX;
        }
        let above = at.y - groundX_naga_oil_mod_XONRWK3TFHI5HIZLSOJQWS3QX(at.xz, 5u);
        if above < 0.0008 * way {
            return way;
        }
        way += 0.42 * above + 0.0008 * way;
    }
    return min(way, FARX_naga_oil_mod_XONRWK3TFHI5HIZLSOJQWS3QX);
}

fn through_airX_naga_oil_mod_XONRWK3TFHI5GY2LHNB2AX(colour: vec3f, ray: RayX_naga_oil_mod_XONRWK3TFHI5GM4TBNVSQX, way: f32) -> vec3f {
    return mix(colour, skyX_naga_oil_mod_XONRWK3TFHI5GY2LHNB2AX(vec3f(ray.direction.x, 0.06, ray.direction.z)), 1.0 - exp(-0.012 * squareX_naga_oil_mod_XONRWK3TFHI5G2YLUNAX(way)));
}

fn normal_atX_naga_oil_mod_XONRWK3TFHI5HIZLSOJQWS3QX(at: vec2f, way: f32) -> vec3f {
    let step = 0.0007 * way + 0.0006;
    let x = vec2f(step, 0.0);
    return normalize(vec3f(groundX_naga_oil_mod_XONRWK3TFHI5HIZLSOJQWS3QX(at - x, 10u) - groundX_naga_oil_mod_XONRWK3TFHI5HIZLSOJQWS3QX(at + x, 10u), 2.0 * step, groundX_naga_oil_mod_XONRWK3TFHI5HIZLSOJQWS3QX(at - x.yx, 10u) - groundX_naga_oil_mod_XONRWK3TFHI5HIZLSOJQWS3QX(at + x.yx, 10u)));
}

fn reachedX_naga_oil_mod_XONRWK3TFHI5HIZLSOJQWS3QX(point: vec3f, direction: vec3f) -> f32 {
    var left = 1.0;
    var way = 0.015;
    for (var i = 0; i < 20; i += 1) {
        let at = point + way * direction;
        let above = at.y - groundX_naga_oil_mod_XONRWK3TFHI5HIZLSOJQWS3QX(at.xz, 4u);
        left = min(left, 12.0 * above / way);
        if left < 0.0 || at.y > HIGHESTX_naga_oil_mod_XONRWK3TFHI5HIZLSOJQWS3QX {
            break;
        }
        way += clamp(0.6 * above, 0.02, 0.3);
    }
    return smoothstep(0.0, 1.0, left);
}

fn litX_naga_oil_mod_XONRWK3TFHI5GY2LHNB2AX(colour: vec3f, normal: vec3f, sunlit: f32) -> vec3f {
    let sun = lampX_naga_oil_mod_XONRWK3TFHI5GY2LHNB2AX();
    let direct = sunlit * max(dot(normal, sun.direction), 0.0) * sun.colour;
    let above = (0.5 + 0.5 * normal.y) * 0.45 * skyX_naga_oil_mod_XONRWK3TFHI5GY2LHNB2AX(vec3f(0.1, 0.98, -0.17));
    let back = max(dot(normal, normalize(sun.direction * vec3f(-1.0, 0.0, -1.0))), 0.0) * 0.07 * sun.colour;
    return colour * (direct + above + back);
}

fn ground_lookX_naga_oil_mod_XONRWK3TFHI5G2YLUMVZGSYLMX(ray: RayX_naga_oil_mod_XONRWK3TFHI5GM4TBNVSQX, way: f32) -> vec3f {
    let point = ray.start + way * ray.direction;
    let normal = normal_atX_naga_oil_mod_XONRWK3TFHI5HIZLSOJQWS3QX(point.xz, way);
    return litX_naga_oil_mod_XONRWK3TFHI5GY2LHNB2AX(ground_colourX_naga_oil_mod_XONRWK3TFHI5G2YLUMVZGSYLMX(point, normal), normal, reachedX_naga_oil_mod_XONRWK3TFHI5HIZLSOJQWS3QX(point + 0.004 * normal, lampX_naga_oil_mod_XONRWK3TFHI5GY2LHNB2AX().direction));
}

fn through_airX_naga_oil_vrt_XONRWK3TFHI5GY2LHNB2AXX_naga_oil_mod_XONRWK3TFHI5GM33HX(colour: vec3f, ray: RayX_naga_oil_mod_XONRWK3TFHI5GM4TBNVSQX, way: f32) -> vec3f {
    let clear = through_airX_naga_oil_mod_XONRWK3TFHI5GY2LHNB2AX(colour, ray, way);
    let fall = THINX_naga_oil_mod_XONRWK3TFHI5GM33HX * ray.direction.y;
    let straight = select((1.0 - exp(-way * fall)) / fall, way, abs(fall) < 0.001);
    let end = ray.start + way * ray.direction;
    let drift = 0.45 + 1.1 * layersX_naga_oil_mod_XONRWK3TFHI5G433JONSQX(end.xz * 1.3 + vec2f(0.07 * frameX_naga_oil_mod_XONRWK3TFHI5GM4TBNVSQX.time, 0.0), 4u);
    let amount = 1.0 - exp(-f32(4) / 10.0 * drift * exp(-THINX_naga_oil_mod_XONRWK3TFHI5GM33HX * (ray.start.y - 0.28)) * straight);
    let sun = lampX_naga_oil_mod_XONRWK3TFHI5GY2LHNB2AX();
    let glow = pow(saturate(dot(ray.direction, sun.direction)), 8.0);
    let bright = skyX_naga_oil_mod_XONRWK3TFHI5GY2LHNB2AX(vec3f(0.0, 0.25, -0.97)) * 0.82 + 0.2 * glow * sun.colour + 0.035 * sun.colour;
    return mix(clear, bright, min(amount, 0.96));
}

fn water_lookX_naga_oil_mod_XONRWK3TFHI5G2YLUMVZGSYLMX(ray: RayX_naga_oil_mod_XONRWK3TFHI5GM4TBNVSQX, way: f32) -> vec3f {
    let point = ray.start + way * ray.direction;
    let normal = wave_normalX_naga_oil_mod_XONRWK3TFHI5G2YLUMVZGSYLMX(point.xz, way);
    var bounced = reflect(ray.direction, normal);
    bounced.y = abs(bounced.y);
    let mirrored = RayX_naga_oil_mod_XONRWK3TFHI5GM4TBNVSQX(point, bounced);
    let far = way_to_groundX_naga_oil_mod_XONRWK3TFHI5HIZLSOJQWS3QX(mirrored);
    var above = skyX_naga_oil_mod_XONRWK3TFHI5GY2LHNB2AX(bounced);
    if far < FARX_naga_oil_mod_XONRWK3TFHI5HIZLSOJQWS3QX {
        above = ground_lookX_naga_oil_mod_XONRWK3TFHI5G2YLUMVZGSYLMX(mirrored, far);
    }
    let mirror = 0.03 + 0.97 * pow(1.0 - saturate(-dot(ray.direction, normal)), 5.0);
    let sun = lampX_naga_oil_mod_XONRWK3TFHI5GY2LHNB2AX();
    let glitter = pow(saturate(dot(bounced, sun.direction)), 240.0) * reachedX_naga_oil_mod_XONRWK3TFHI5HIZLSOJQWS3QX(point, sun.direction);
    let depth = saturate(6.0 * (SEAX_naga_oil_mod_XONRWK3TFHI5HIZLSOJQWS3QX - groundX_naga_oil_mod_XONRWK3TFHI5HIZLSOJQWS3QX(point.xz, 5u)));
    let below = mix(vec3f(0.10, 0.16, 0.13), vec3f(0.012, 0.05, 0.07), depth) * (0.15 * sun.colour + 0.35 * skyX_naga_oil_mod_XONRWK3TFHI5GY2LHNB2AX(vec3f(0.0, 1.0, 0.0)));
    return mix(below, above, mirror) + glitter * sun.colour * 0.6;
}

fn seen(ray: RayX_naga_oil_mod_XONRWK3TFHI5GM4TBNVSQX) -> vec3f {
    let to_ground = way_to_groundX_naga_oil_mod_XONRWK3TFHI5HIZLSOJQWS3QX(ray);
    let to_sea = select(FARX_naga_oil_mod_XONRWK3TFHI5HIZLSOJQWS3QX, (SEAX_naga_oil_mod_XONRWK3TFHI5HIZLSOJQWS3QX - ray.start.y) / ray.direction.y, ray.direction.y < 0.0);
    let way = min(to_ground, to_sea);
    if way >= FARX_naga_oil_mod_XONRWK3TFHI5HIZLSOJQWS3QX {
        return through_airX_naga_oil_vrt_XONRWK3TFHI5GY2LHNB2AXX_naga_oil_mod_XONRWK3TFHI5GM33HX(skyX_naga_oil_mod_XONRWK3TFHI5GY2LHNB2AX(ray.direction), ray, FARX_naga_oil_mod_XONRWK3TFHI5HIZLSOJQWS3QX * 0.2);
    }
    if to_sea < to_ground {
        return through_airX_naga_oil_vrt_XONRWK3TFHI5GY2LHNB2AXX_naga_oil_mod_XONRWK3TFHI5GM33HX(water_lookX_naga_oil_mod_XONRWK3TFHI5G2YLUMVZGSYLMX(ray, way), ray, way);
    }
    return through_airX_naga_oil_vrt_XONRWK3TFHI5GY2LHNB2AXX_naga_oil_mod_XONRWK3TFHI5GM33HX(ground_lookX_naga_oil_mod_XONRWK3TFHI5G2YLUMVZGSYLMX(ray, way), ray, way);
}

@vertex
fn corner(@builtin(vertex_index) index: u32) -> @builtin(position) vec4f {
    let corners = array(vec2f(-1.0, -1.0), vec2f(3.0, -1.0), vec2f(-1.0, 3.0));
    return vec4f(corners[index], 0.0, 1.0);
}

@fragment
fn pixel(@builtin(position) at: vec4f) -> @location(0) vec4f {
    return vec4f(developed(seen(ray_ofX_naga_oil_mod_XONRWK3TFHI5GM4TBNVSQX(at.xy)), at.xy), 1.0);
}
