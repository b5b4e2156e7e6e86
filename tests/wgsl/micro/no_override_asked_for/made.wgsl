@group(0) @binding(0) var<storage, read_write> out: array<u32, 64>;

fn powerX_naga_oil_mod_XNRQW24AX(at: u32) -> u32 {
    return at + 1u;
}

fn seenX_naga_oil_mod_XNRQW24AX(at: u32) -> u32 {
    return powerX_naga_oil_mod_XNRQW24AX(at);
}

@compute @workgroup_size(1)
fn main() {
    out[0] = seenX_naga_oil_mod_XNRQW24AX(1u);
}
