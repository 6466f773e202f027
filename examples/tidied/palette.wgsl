/* Colours of a palette for an image, made by a tool. */
diagnostic(off, derivative_uniformity);
const palette = array(
    vec4f(0.00, 0.00, 0.00, 1.0),
    vec4f(0.25, 0.10, 0.40, 1.0),
    vec4f(0.60, 0.20, 0.50, 1.0),
    vec4f(0.95, 0.45, 0.35, 1.0) /* the warmest */,
    vec4f(1.00, 0.85, 0.55, 1.0)
);
const weights = array(
    array(0.0625, 0.125, 0.0625),
    array(0.125, 0.25, 0.125),
    array(0.0625, 0.125, 0.0625)
);
@group(0) @binding(0) var source_image: texture_2d<f32>;
@group(0) @binding(1) var target_image: texture_storage_2d<rgba8unorm, write>;
@group(0) @binding(2) var<storage, read> rows_of_weights: array<f32>;
override maximum_number_of_rows: u32 = 3u;

fn weighted(
    image: texture_2d<f32>,
    place: vec2<i32>,
    first: vec2<i32>,
    last: vec2<i32>,
    weight: f32
) -> vec4f {
    return textureLoad(image, clamp(place, first, last), 0) * weight;
}

@compute @workgroup_size(8, 8, 1) fn recolour(
    @builtin(global_invocation_id) id: vec3<u32>,
    @builtin(local_invocation_index) lane: u32
) {
    let last = vec2<i32>(textureDimensions(source_image)) - vec2<i32>(1, 1);
    var sum = vec4f();
    var found = 0u;
    for (
        var row: u32 = 0u;
        (row < arrayLength(&rows_of_weights)) && (row < maximum_number_of_rows);
        row = row + 1u
    ) {
        for (var column = 0; column < 3; column++) {
            sum += weighted(
                source_image,
                vec2<i32>(id.xy) + vec2<i32>(i32(row), column),
                vec2<i32>(0),
                last,
                weights[row][column]
            );
        }
    }
    if (
        sum.r > 0.5
            && sum.g > 0.5
            && sum.b > 0.5
            && sum.a > 0.0
            && all(id.xy < vec2<u32>(last))
            && lane != 0u
    ) {
        found = found + 1u;
    } // all of it is bright
    textureStore(
        target_image,
        vec2<i32>(id.xy),
        select(sum, palette[min(found, 4u)], vec4<bool>(found > 0u))
    );
}
