// A sheet of points that moves like water: a vertex and a fragment stage.
enable f16;

struct Camera { @size(64) view: mat4x4<f32>, projection: mat4x4<f32>, @align(16) time: f32 }
struct Wave { direction: vec2<f32>, length: f32, height: f32, }
struct Point { @builtin(position) clip: vec4<f32>, @location(0) normal: vec3<f32>, @location(1) @interpolate(linear, centroid) depth: f32 }

@group(0) @binding(0) var<uniform> camera: Camera;
@group(0) @binding(1) var<storage, read> waves: array<Wave, 4>;
@group(1) @binding(0) var sky: texture_cube<f32>;
@group(1) @binding(1) var sky_sampler: sampler;

alias Color = vec4<f32>;
const deep = Color(0.02, 0.08f, 1.2e-1, 1.);
const_assert 4 < 2 * 8;

fn height_at(place: vec2<f32>) -> vec3<f32> {
    var sum: vec3<f32>;
    for (var i = 0u; i < 4u; i++) {
        let wave = waves[i];
        let phase = dot(place, wave.direction) * (6.28 / wave.length) + camera.time;
        sum += vec3<f32>(wave.direction * cos(phase), sin(phase)) * wave.height;
    }
    return sum;
}

@vertex fn sheet(@location(0) corner: vec2<f32>, @builtin(instance_index) row: u32) -> Point {
    var out: Point;
    let lifted = height_at(corner + vec2(0, f32(row)));
    out.clip = camera.projection * camera.view * vec4(corner.x, lifted.z, corner.y, 1);
    out.normal = normalize(vec3<f32>(-lifted.x, 1.0, -lifted.y));
    out.depth = -lifted.z;
    return out;
}

@fragment fn shade(in: Point) -> @location(0) Color {
    let mirrored = textureSample(sky, sky_sampler, reflect(vec3(0, -1, 0), in.normal));
    if in.depth > 0.5 && in.normal.y < 0.99 { return mix(deep, mirrored, 0.25); }
    else if (in.depth < -0.5) || !(in.normal.y >= .1) { discard; }
    else { return mirrored; }
    return deep;
}
