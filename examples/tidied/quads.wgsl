// Made by a tool from quads.graph: a declaration is one line, however long.
struct Bounds {
    minimum: vec2<f32>,
    maximum: vec2<f32>
}
struct Camera {
    origin: vec2<f32>,
    scale: f32,
    bounds: Bounds
}
struct VertexOutput {
    @builtin(position) position: vec4<f32>,
    @location(0) uv: vec2<f32>,
    @location(1) @interpolate(flat) instance: u32
}
@group(0) @binding(0) var<uniform> camera: Camera;
const corners = array<vec2<f32>, 6>(
    vec2<f32>(-1.0, -1.0),
    vec2<f32>(1.0, -1.0),
    vec2<f32>(1.0, 1.0),
    /* the second triangle */ vec2<f32>(1.0, 1.0),
    vec2<f32>(-1.0, 1.0),
    vec2<f32>(-1.0, -1.0)
);
const middle = array(vec2f(0.0, 0.0), vec2f(0.5, 0.0), vec2f(0.5, 0.5), vec2f(0.0, 0.5));

@vertex fn place(
    @builtin(vertex_index) vertex: u32,
    @builtin(instance_index) instance: u32,
    @location(0) offset: vec2<f32>
) -> VertexOutput {
    let corner = corners[vertex];
    let scaled = ((corner * camera.scale) + (offset * vec2<f32>(f32(instance), 1.0)))
        + vec2<f32>(camera.origin.x, camera.origin.y);
    return VertexOutput(
        vec4<f32>(scaled, 0.0, 1.0),
        (corner * vec2<f32>(0.5, -0.5)) + vec2<f32>(0.5, 0.5),
        instance
    );
}
fn is_seen(position: vec2<f32>) -> bool {
    let b = camera.bounds;
    return ((position.x >= b.minimum.x) && (position.x <= b.maximum.x))
        && ((position.y >= b.minimum.y) && (position.y <= b.maximum.y));
}

@fragment fn shade(in: VertexOutput) -> @location(0) vec4<f32> {
    if (((in.uv.x < 0.0) || (in.uv.x > 1.0)) || ((in.uv.y < 0.0) || (in.uv.y > 1.0)))
        && (in.instance != 0u)
    {
        discard;
    }
    return mix(
        vec4<f32>(in.uv, 0.0, 1.0),
        vec4<f32>(colour_of(in.instance, in.uv.x), 1.0),
        smoothstep(0.0, 1.0, in.uv.y)
    ); // from black to the colour
}
