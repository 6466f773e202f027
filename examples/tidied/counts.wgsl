/* Counts how often each byte stands in a buffer,
   first in a workgroup and then in all. */
requires readonly_and_readwrite_storage_textures;

override bins: u32 = 256u; // one for each byte
@id(7) override scale = 1.5;
var<workgroup> local: array<atomic<u32>, /* bins */ 256>;
@group(0) @binding(1) // written by every workgroup
var<storage, read_write> counts: array<atomic<u32>>;
@group(0) @binding(0) var<storage, read> words: array<u32>;

fn byte_of(word: u32, /* 0 to 3 */ place: u32) -> u32 {
    return (word >> (place * 8u)) & 0xffu;
}

fn kind_of(byte: u32) -> i32 {
    switch byte {
        // blank space
        case 0x09, 0x0a,
            0x0d, 0x20: {
            return 0;
        }
        case 48u, 57u {
            return 1;
        } // the first digit and the last
        case (1u << 7u), default,: { /* nothing else is counted */ }
    }
    return i32(byte) - -1;
}

@compute @workgroup_size(64, 1)
fn count(
    @builtin(global_invocation_id) id: vec3<u32>,
    @builtin(local_invocation_index) lane: u32, // below 64
) {
    var seen = 0x0u;
    loop {
        if seen >= arrayLength(&words) {
            break;
        }

        let word = words[min(seen, id.x)];
        for (var place = 0u; place < 4u; place += 1u) {
            let byte = byte_of(word, place) % bins;
            atomicAdd(
                &local[byte],
                // one, or nothing
                u32(kind_of(byte) >= 0)
            );
        }
        continuing {
            seen += 64u; // a word for each lane
            break if seen > id.x * 4u;
        }
    }
    workgroupBarrier();
    var at: u32 = lane;
    while at < 256u {
        let n = atomicLoad(&local[at]);
        atomicAdd(&counts[at], n);
        /* if n == 0u { /* skipped */ } */
        at <<= 1u;
    }
    {
        ;
        _ = ~lane ^ at;
    }
}
