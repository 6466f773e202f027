diagnostic (off, derivative_uniformity);
diagnostic (warning, walk.depth);
enable f16, subgroups;

const depth_limit: i32 = 32;

override step = 0x1.8p-3f;

struct Box {
    low: vec3<f16>,
    high: vec3<f16>,
    @size(8)
    children: vec2<i32>
}

@group(2) @binding(3)
var<storage> boxes: array<Box, depth_limit + 1>;

@diagnostic(info, walk.depth)
fn next(pointer: ptr<function, i32>, boxed: bool) -> i32 {
    let old = *pointer;
    *pointer = select(boxes[old].children[0], boxes[old].children.y, boxed);
    (*pointer)++;
    (*pointer)--;
    return old;
}

@must_use
fn inside(at: vec3<f16>, box: Box) -> bool {
    return all(at >= box.low) && all(at <= box.high);
}

@fragment
fn walk(@location(0) @interpolate(flat) start: i32, @builtin(front_facing) front: bool) -> @location(0) vec4<f32> {
    var node = start;
    var turns = -depth_limit;
    @diagnostic(off, walk.turns)
    loop @diagnostic(info, walk.body)
    {
        if (node < 0) {
            break;
        }
        else if !front {
            continue;
        }
        {
            let taken = next(&node, inside(vec3<f16>(1h, .5h, 2.h), boxes[node]));
            turns += taken / 2 % 3;
        }
        continuing @diagnostic(off, walk.end)
        {
            turns *= 1 << 1u;
            break if turns == 0 || node > depth_limit;
        }
    }
    return vec4<f32>(f32(turns), step, - -step, f32(i32(front) & 1));
}
