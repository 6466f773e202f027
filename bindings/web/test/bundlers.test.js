// Builds a small page with each of Debian's bundlers, runs it, and has each report a fault.

import assert from 'node:assert/strict';
import { spawnSync } from 'node:child_process';
import {
  existsSync, mkdtempSync, mkdirSync, readFileSync, rmSync, symlinkSync, writeFileSync,
} from 'node:fs';
import { tmpdir } from 'node:os';
import path from 'node:path';
import { after, before, describe, test } from 'node:test';
import { fileURLToPath } from 'node:url';
import vm from 'node:vm';

const PACKAGE = fileURLToPath(new URL('../../../build/web', import.meta.url));
// where Debian's packages are, which Debian's Node searches by itself
const PACKAGES = ['share/nodejs', 'lib/nodejs', 'lib/x86_64-linux-gnu/nodejs'];
// what Debian's webpack reads of Debian's Node, for another one
const AS_DEBIAN = `Object.defineProperty(process, 'config', { value: {
  ...process.config, variables: {
    node_prefix: '/usr', node_relative_path: '${PACKAGES.join(':')}', ...process.config.variables,
  },
} });
`;
const SHADER = `// A colour, and what is drawn in it.
const red = vec3f(1.0, 0.0, 0.0);
@fragment fn shade() -> @location(0) vec4f { return vec4f(red, 1.0); }
`;
const MINIFIED = 'const a=vec3f(1.0,0.0,0.0);'
  + '@fragment fn shade()->@location(0)vec4f{return vec4f(a,1.0);}';
// the fault is the second `=`, after a character of two bytes
const FAULTY = 'const a = 1;\n/* ä */ const = 2;\n';
const LINE = '/* ä */ const = 2;';
const MESSAGE = 'unexpected token `=`';

const PAGE = `import code from './shader.wgsl';
document.querySelector('pre').textContent = code;
`;

// by the name of each bundler: a file that builds the page, and how it is run in each mode
const BUNDLERS = {
  rollup: {
    file: 'rollup.config.mjs',
    text: `import wgsl from 'centrelilac/rollup';
const file = process.env.BUNDLED;
export default { input: 'page.js', output: { file, format: 'iife' }, plugins: [wgsl(SET)] };
`,
    words: ['rollup', '-c', 'rollup.config.mjs'],
    production: '',
    development: '{ minify: false }',
    place: 'shader.wgsl (2:14)',
  },
  esbuild: {
    file: 'build.cjs',
    text: `import('centrelilac/esbuild').then(({ default: wgsl }) => require('esbuild').build({
  entryPoints: ['page.js'], outfile: process.env.BUNDLED, bundle: true, plugins: [wgsl()], ...SET,
})).catch(() => process.exit(1));
`,
    words: [process.execPath, 'build.cjs'],
    production: '{ minify: true }',
    development: '{}',
    place: 'shader.wgsl:2:15:',
  },
  webpack: {
    file: 'webpack.config.js',
    text: `const { dir: path, base: filename } = require('path').parse(process.env.BUNDLED);
module.exports = {
  entry: './page.js', output: { path, filename }, mode: SET,
  module: { rules: [{ test: /\\.wgsl$/, use: 'centrelilac/webpack' }] },
};
`,
    words: ['webpack'],
    production: "'production'",
    development: "'development'",
    place: 'shader.wgsl:2:15: error: ',
  },
};

// what TypeScript is given, with what it says of it
const TYPED = `import code from './shader.wgsl';
import rollup from 'centrelilac/rollup';
import esbuild from 'centrelilac/esbuild';
import { transform } from 'centrelilac/transform';
export const length: number = code.length;
export const plugins = [rollup({ minify: false, keep: ['shade'] }), esbuild()];
export const made: Promise<{ code: string }> = transform(code, { names: 'locals', file: 'a.wgsl' });
`;
const WRONG = `import code from './shader.wgsl';
import rollup from 'centrelilac/rollup';
export const length: number = code;
rollup({ names: 'some' });
rollup({ kept: ['shade'] });
`;
const TYPES = {
  compilerOptions: {
    module: 'nodenext', target: 'es2022', lib: ['es2022', 'dom'], strict: true, noEmit: true,
    types: ['centrelilac/shader'],
  },
  files: ['typed.ts'],
};

/** What the compiler of TypeScript prints of a file. */
function compiled(folder, text) {
  writeFileSync(path.join(folder, 'package.json'), '{ "type": "module" }');
  writeFileSync(path.join(folder, 'tsconfig.json'), JSON.stringify(TYPES));
  writeFileSync(path.join(folder, 'typed.ts'), text);
  return spawnSync('tsc', [], { cwd: folder, encoding: 'utf8' }).stdout;
}

/** Builds the page with a shader in one of the modes; returns what was printed, and the file. */
function build(folder, name, mode, shader) {
  const { file, text, words: [program, ...words] } = BUNDLERS[name];
  writeFileSync(path.join(folder, 'page.js'), PAGE);
  writeFileSync(path.join(folder, 'shader.wgsl'), shader);
  writeFileSync(path.join(folder, file), text.replace('SET', BUNDLERS[name][mode]));
  const bundled = path.join(folder, 'out', `${name}-${mode}.js`);
  const env = {
    ...process.env,
    BUNDLED: bundled,
    NODE_OPTIONS: `--require ${path.join(folder, 'debian.cjs')}`,
    NODE_PATH: PACKAGES.map((it) => `/usr/${it}`).join(':'),
    NO_COLOR: '1',
  };
  const ran = spawnSync(program, words, { cwd: folder, env, encoding: 'utf8' });
  return { status: ran.status, printed: ran.stdout + ran.stderr, bundled };
}

/** What the page of a bundle writes into its element. */
function shown(bundled) {
  const pre = {};
  const document = { querySelector: (name) => (name === 'pre' ? pre : null) };
  vm.runInNewContext(readFileSync(bundled, 'utf8'), { document });
  return pre.textContent;
}

describe('bundlers', () => {
  let folder;

  before(() => {
    folder = mkdtempSync(path.join(tmpdir(), 'bundlers-'));
    mkdirSync(path.join(folder, 'node_modules'));
    symlinkSync(PACKAGE, path.join(folder, 'node_modules', 'centrelilac'));
    writeFileSync(path.join(folder, 'debian.cjs'), AS_DEBIAN);
  });
  after(() => rmSync(folder, { recursive: true }));

  for (const [name, { place }] of Object.entries(BUNDLERS)) {
    const skip = existsSync(`/usr/bin/${name}`) ? false : `apt-get install ${name}`;

    test(`${name} minifies in production`, { skip }, () => {
      const { status, printed, bundled } = build(folder, name, 'production', SHADER);
      assert.equal(status, 0, printed);
      assert.equal(shown(bundled), MINIFIED);
    });

    test(`${name} keeps the source in development`, { skip }, () => {
      const { status, printed, bundled } = build(folder, name, 'development', SHADER);
      assert.equal(status, 0, printed);
      assert.equal(shown(bundled), SHADER);
    });

    for (const mode of ['production', 'development']) {
      test(`${name} reports a fault in ${mode}`, { skip }, () => {
        const { status, printed } = build(folder, name, mode, FAULTY);
        assert.notEqual(status, 0);
        for (const part of [place, LINE, MESSAGE]) assert.ok(printed.includes(part), printed);
        const lines = printed.split('\n');
        const at = lines.findIndex((line) => line.includes(LINE));
        assert.equal(lines[at + 1].indexOf('^'), lines[at].indexOf('='), printed);
      });
    }
  }

  const noTypes = existsSync('/usr/bin/tsc') ? false : 'apt-get install node-typescript';
  test('TypeScript knows shaders and plugins', { skip: noTypes }, () => {
    const project = path.join(folder, 'typed');
    mkdirSync(path.join(project, 'node_modules'), { recursive: true });
    symlinkSync(PACKAGE, path.join(project, 'node_modules', 'centrelilac'));
    assert.equal(compiled(project, TYPED), '');
    const lines = compiled(project, WRONG).match(/(?<=^typed\.ts\()\d+/gm);
    assert.deepEqual(lines, ['3', '4', '5']);
  });

  test('Vite is told by its configuration whether a shader is minified', async () => {
    const { default: wgsl } = await import(path.join(PACKAGE, 'plugins', 'rollup.js'));
    for (const [isProduction, text] of [[true, MINIFIED], [false, SHADER]]) {
      const plugin = wgsl();
      plugin.configResolved({ isProduction });
      const made = await plugin.transform.call({ meta: {} }, SHADER, '/src/shader.wgsl');
      assert.equal(made.code, `export default ${JSON.stringify(text)};\n`);
      assert.equal(await plugin.transform.call({ meta: {} }, SHADER, '/src/shader.wgsl?raw'), null);
    }
  });
});
