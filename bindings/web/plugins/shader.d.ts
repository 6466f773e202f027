// What a shader is to TypeScript where a plugin imports it: `"types": ["centrelilac/shader"]`.

declare module '*.wgsl' {
  /** The text of the shader. */
  const text: string;
  export default text;
}
