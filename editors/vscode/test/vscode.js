// In place of the module of Visual Studio Code: what the extension takes of it and what it gives.

class Range {
  constructor(...numbers) {
    this.numbers = numbers;
  }
}

class Diagnostic {
  constructor(range, message, severity) {
    Object.assign(this, { range, message, severity });
  }
}

const seen = {
  path: 'wgsltidy', provider: undefined, onClose: undefined, diagnostics: new Map(), messages: [],
};

module.exports = {
  Range,
  Diagnostic,
  DiagnosticSeverity: { Error: 0 },
  EndOfLine: { LF: 1, CRLF: 2 },
  TextEdit: {
    replace: (range, text) => ({ range, text }),
    setEndOfLine: (newline) => ({ newline }),
  },
  languages: {
    createDiagnosticCollection: () => seen.diagnostics,
    registerDocumentFormattingEditProvider(selector, provider) {
      Object.assign(seen, { selector, provider });
    },
  },
  workspace: {
    getConfiguration: () => ({ get: (name) => seen[name] }),
    onDidCloseTextDocument(onClose) {
      seen.onClose = onClose;
    },
  },
  window: { showErrorMessage: (message) => seen.messages.push(message) },
  seen,
};
