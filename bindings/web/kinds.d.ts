// The kinds of tokens and comments.

/** The kind of a token or a comment; only `tokens` with `comments` returns the last three. */
export type TokenKind =
  // Written by tools/tables/tokens.py from crates/wgsl_model/tokens.
  | 'SymAnd' | 'SymAndAnd' | 'SymArrow' | 'SymAttr' | 'SymForwardSlash' | 'SymBang'
  | 'SymBracketLeft' | 'SymBracketRight' | 'SymBraceLeft' | 'SymBraceRight' | 'SymColon'
  | 'SymComma' | 'SymEqual' | 'SymEqualEqual' | 'SymNotEqual' | 'SymGreaterThan'
  | 'SymGreaterThanEqual' | 'SymShiftRight' | 'SymLessThan' | 'SymLessThanEqual' | 'SymShiftLeft'
  | 'SymModulo' | 'SymMinus' | 'SymMinusMinus' | 'SymPeriod' | 'SymPlus' | 'SymPlusPlus' | 'SymOr'
  | 'SymOrOr' | 'SymParenLeft' | 'SymParenRight' | 'SymSemicolon' | 'SymStar' | 'SymTilde'
  | 'SymUnderscore' | 'SymXor' | 'SymPlusEqual' | 'SymMinusEqual' | 'SymTimesEqual'
  | 'SymDivisionEqual' | 'SymModuloEqual' | 'SymAndEqual' | 'SymOrEqual' | 'SymXorEqual'
  | 'SymShiftRightAssign' | 'SymShiftLeftAssign' | 'KwAlias' | 'KwBreak' | 'KwCase' | 'KwConst'
  | 'KwConstAssert' | 'KwContinue' | 'KwContinuing' | 'KwDefault' | 'KwDiagnostic' | 'KwDiscard'
  | 'KwElse' | 'KwEnable' | 'KwFalse' | 'KwFn' | 'KwFor' | 'KwIf' | 'KwLet' | 'KwLoop'
  | 'KwOverride' | 'KwRequires' | 'KwReturn' | 'KwStruct' | 'KwSwitch' | 'KwTrue' | 'KwVar'
  | 'KwWhile' | 'Ident' | 'ReservedWord' | 'AbstractInt' | 'I32' | 'U32' | 'AbstractFloat' | 'F32'
  | 'F16' | 'TemplateArgsStart' | 'TemplateArgsEnd' | 'LineComment' | 'BlockComment' | 'OpenComment';
