// A module with each variant of each enum of the trees, and each kind of part.

// Examples of the variants, written by tools/tables/nodes.py from crates/wgsl_model/nodes.
diagnostic(off, a);
enable f16;
requires a;
;
const a = 1;
alias A = B;
struct A { a: f32 }
fn f() {}
const_assert true;
const a = 1;
const a = (a);
const a = a.b;
const a = a[1];
const a = -a;
const a = a + b;
const a = f(a);
const a = a;
const a = true;
const a = 1;
const a = 1i;
const a = 1u;
const a = 1.5;
const a = 1.5f;
const a = 1.5h;
fn f() -> @align(4) @binding(0) @blend_src(1) @group(0) @id(1) @location(0) @size(16) @if(a)
    @elif(a) @builtin(position) @const @invariant @must_use @vertex @fragment @compute @else
    @diagnostic(off, a) @interpolate(flat) @workgroup_size(8) @type(a, f32) @other a {}
fn f() {
    ;
    {}
    a = 1;
    a++;
    a--;
    if a {}
    switch a { default {} }
    loop {}
    for (;;) {}
    while a {}
    break;
    continue;
    return 1;
    discard;
    f(a);
    const_assert true;
    let a = 1;
}
// What they lack: parts that are no variants, and attributes where they may be.
;
alias A = array<vec2<f32>, 4>;
const a = true && (1 < 2) == false;
@id(1) override b: i32 = -3i;
@group(0) @binding(1) var<storage, read_write> c: array<u32>;
var<private> d = 4u;
const_assert 1.5 + 2.5f + 3.5h > 0.0;
@if(a) const e = 1;
@elif(b) const f = 1;
@else const g = 1;
@type(h, i32 | u32) fn with_type_constraint() {}
struct S {
    @size(16) @align(16) x: f32,
    @builtin(position) @invariant y: vec4<f32>,
    @location(0) @interpolate(flat, first) z: u32,
}
@const @must_use @custom(1, 2) fn constant(@location(0) p: i32) -> @location(1) i32 {
    return p;
}
@fragment @diagnostic(warning, a.b) fn fragment_stage() {}
@compute @workgroup_size(8, 4, 1) fn compute_stage() {
    let i = max(c[0].x, 1);
    var j: u32;
    _ = i;
    const_assert true;
    {
        if (a) { return; } else if (b == 1) { } else { }
    }
    switch j {
        case 1, default: { break; }
    }
    loop {
        continue;
        continuing {
            break if j > 3;
        }
    }
    for (var k = 0; k < 3; k++) { }
}
