// A sheet of points that moves like water: a vertex and a fragment stage.
enable f16;

struct Camera {
    @size(64) view: mat4x4<f32>,
    projection: mat4x4<f32>,
    @align(16) time: f32, // seconds since the start
}

// A wave runs in one direction.
struct Wave {
    direction: vec2<f32>,
    length: f32, /* from crest to crest */
    height: f32
}

@group(0) @binding(0) var<uniform> camera: Camera;
@group(0) @binding(1)
var<storage, read> waves: array<Wave, 4>; // the longest first

// ---- colours ----

alias Color = vec4<f32>;
const deep = Color(
    0.02, 0.08f, // red and green
    1.2e-1, 1.
);
const_assert 4 < 2 * 8;

/* How high the sheet is at a place, and where
   it leans: the sum of all waves. */
fn height_at(place: vec2<f32>) -> vec3<f32> {
    var sum: vec3<f32>;

    for (var i = 0u; i < 4u; i++) { // each wave
        let wave = waves[i];
        let phase = dot(place, wave.direction) * (6.28 / wave.length) + camera.time; // all waves run as fast
        sum += vec3<f32>(wave.direction * cos(phase), /* height */ sin(phase)) * wave.height;
    }
    return sum;

    // nothing is left of the phase
}

@fragment
fn shade(@location(0) normal: vec3<f32>, @location(1) depth: f32) -> @location(0) Color {
    if depth > 0.5 && normal.y < 0.99 {
        return deep;
    }
    // Below the sheet nothing is drawn.
    else if (depth < -0.5) || !(normal.y >= .1) {
        discard;
    }
    return mix(deep, vec4<f32>(normal, 1.), 0.25);
}
// TODO: foam
