// Atomics, workgroup variables and barriers.
@group(0) @binding(0) var<storage, read_write> out: array<u32, 64>;

struct Tally {
    low: atomic<u32>,
    high: array<atomic<i32>, 2>,
    sum: u32,
}

var<workgroup> tally: Tally;
var<workgroup> board: array<u32, 8>;
var<workgroup> chosen: u32;

fn record(at: u32) -> u32 {
    atomicMin(&tally.high[0], -i32(at));
    let before = atomicAdd(&tally.low, at);
    return before * 0u + at;
}

fn exchanged(old: u32) -> u32 {
    let traded = atomicCompareExchangeWeak(&tally.low, old, 50u);
    return select(traded.old_value, 100u, traded.exchanged && traded.old_value == old);
}

@compute @workgroup_size(4, 2, 1)
fn main(@builtin(local_invocation_index) at: u32, @builtin(num_workgroups) groups: vec3u) {
    board[at] = record(at) * groups.x;
    workgroupBarrier();
    if at == 0u {
        atomicStore(&tally.high[1], 7);
        tally.sum = board[3] + board[4];
        chosen = tally.sum;
        out[8] = atomicLoad(&tally.low);
        out[9] = u32(-atomicLoad(&tally.high[0]));
        out[10] = atomicExchange(&tally.low, 3u);
        out[11] = atomicOr(&tally.low, 8u) + atomicXor(&tally.low, 1u) + atomicAnd(&tally.low, 6u);
        atomicSub(&tally.high[1], 2);
        out[12] = u32(atomicMax(&tally.high[1], 6)) + exchanged(1000u);
    }
    workgroupBarrier();
    let same = workgroupUniformLoad(&chosen);
    out[at] = same + board[7u - at];
    storageBarrier();
}
