// Formats WGSL in Visual Studio Code by the program wgsltidy, and marks the error that it reports.

const { execFile } = require('node:child_process');
const vscode = require('vscode');

/** How many bytes the program may write. */
const MOST = 1 << 28;

/** How the program ends on a text, as which it takes the file of a name. */
function run(program, name, text, token) {
  return new Promise((resolve) => {
    const words = ['--stdin-path', name];
    const child = execFile(program, words, { maxBuffer: MOST }, (error, output, errors) => {
      resolve({ error, output, errors });
    });
    // a program that ends early reads no more; how it ended says why
    child.stdin.on('error', () => {});
    child.stdin.end(text);
    token.onCancellationRequested(() => child.kill());
  });
}

/** How many UTF-16 units the first characters of a line have. */
function unitsOf(line, count) {
  return Array.from(line).slice(0, count).join('').length;
}

/** What is marked for `NAME:LINE:COLUMN: error: MESSAGE`, below which are the line and marks. */
function diagnosticOf(name, text, errors) {
  if (!errors.startsWith(`${name}:`)) return undefined;
  const [head, , marks = ''] = errors.slice(name.length).split('\n');
  const found = /^:(\d+):(\d+): error: (.*)/.exec(head);
  if (!found) return undefined;
  const [row, start] = [found[1] - 1, found[2] - 1];
  const line = text.split('\n')[row] ?? '';
  const [from, to] = [start, start + marks.trim().length].map((count) => unitsOf(line, count));
  const range = new vscode.Range(row, from, row, to);
  const diagnostic = new vscode.Diagnostic(range, found[3], vscode.DiagnosticSeverity.Error);
  diagnostic.source = 'wgsltidy';
  return diagnostic;
}

/** What makes a document the formatted text. */
function editsOf(document, text, formatted) {
  if (formatted === text) return [];
  const { CRLF, LF } = vscode.EndOfLine;
  const all = new vscode.Range(document.positionAt(0), document.positionAt(text.length));
  const newline = formatted.includes('\r\n') ? CRLF : LF;
  return [vscode.TextEdit.replace(all, formatted), vscode.TextEdit.setEndOfLine(newline)];
}

function showFailure(program, { code, message }, errors) {
  const isMissing = code === 'ENOENT';
  const missing = `${program} is not found: the setting wgsltidy.path says where it is.`;
  vscode.window.showErrorMessage(isMissing ? missing : `wgsltidy: ${errors || message}`);
}

/** What makes a document formatted, nothing if it has an error, which is marked. */
async function format(document, token, diagnostics) {
  const program = vscode.workspace.getConfiguration('wgsltidy', document).get('path');
  const [name, text] = [document.fileName, document.getText()];
  const { error, output, errors } = await run(program, name, text, token);
  if (token.isCancellationRequested) return [];
  const diagnostic = error ? diagnosticOf(name, text, errors) : undefined;
  diagnostics.set(document.uri, diagnostic ? [diagnostic] : []);
  if (!error) return editsOf(document, text, output);
  if (!diagnostic) showFailure(program, error, errors);
  return [];
}

exports.activate = ({ subscriptions }) => {
  const diagnostics = vscode.languages.createDiagnosticCollection('wgsltidy');
  const provider = {
    provideDocumentFormattingEdits: (document, _, token) => format(document, token, diagnostics),
  };
  const selector = { language: 'wgsl', scheme: 'file' };
  subscriptions.push(
    diagnostics,
    vscode.languages.registerDocumentFormattingEditProvider(selector, provider),
    vscode.workspace.onDidCloseTextDocument(({ uri }) => diagnostics.delete(uri)),
  );
};
