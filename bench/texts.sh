# Texts of shaders. This file is read by other scripts (`.`). Each function prints a text of about so many bytes.

# What all preprocessors read alike: comments, conditions, and lines that stay; a fifth of the lines fall away.
plain_text() {
    awk -v bytes="$1" '
        function put(line) { print line; written += length(line) + 1 }
        BEGIN {
            put("#version 450")
            put("#define LAYERS 3")
            for (i = 0; written < bytes; i++) {
                put("// The light of lamp " i " on a surface, without what stands behind it.")
                put("float lamp_" i "(vec3 at, vec3 normal) {")
                put("    float distance = length(at - lamps[" i % 16 "].place); /* in metres */")
                put("#ifdef SHADOWS")
                put("    float shadow = texture(shadow_map, at.xy / distance).r;")
                put("#else")
                put("    float shadow = 1.0;")
                put("#endif")
                put("#if LAYERS >= 3")
                put("    float facing = max(dot(normal, normalize(lamps[" i % 16 "].place - at)), 0.0);")
                put("    return shadow * facing * lamps[" i % 16 "].power / (distance * distance + 0.001);")
                put("#else")
                put("    return shadow * lamps[" i % 16 "].power;")
                put("#endif")
                put("}")
                put("")
            }
        }'
}

# The same with imports of items, whose uses are renamed, and with values in the text.
imports_text() {
    awk -v bytes="$1" '
        function put(line) { print line; written += length(line) + 1 }
        BEGIN {
            put("#define_import_path bench::lamps")
            put("#import noise::{ripple, swell as wave}")
            put("#import lights::attenuate")
            put("#define LAYERS 3")
            for (i = 0; written < bytes; i++) {
                put("// The light of lamp " i " on a surface, without what stands behind it.")
                put("fn lamp_" i "(at: vec3<f32>, normal: vec3<f32>) -> f32 {")
                put("    let distance = length(at - lamps[" i % 16 "].place); /* in metres */")
                put("#ifdef SHADOWS")
                put("    let shadow = textureSample(shadow_map, at.xy / distance).r;")
                put("#else")
                put("    let shadow = ripple(at.x) + wave(at.y);")
                put("#endif")
                put("#if LAYERS >= 3")
                put("    let facing = max(dot(normal, normalize(lamps[" i % 16 "].place - at)), 0.0);")
                put("    return shadow * facing * attenuate(distance) * #LAYERS.0;")
                put("#else")
                put("    return shadow * lights::power(lamps[" i % 16 "]);")
                put("#endif")
                put("}")
                put("")
            }
        }'
}
