// Uses the types of bindings/web/tree.d.ts, for tools/tree_test.py, which has tsc check them.
import { packed, treeOf } from '../bindings/web/tree.js';
import type { AccessMode, AddressSpace, Expression, Spanned } from '../bindings/web/tree.js';

const unit = treeOf(new Uint8Array());
for (const it of unit.global_declarations) {
  const end: number = it.span.end;
  if (it.type === 'Declaration' && it.kind.type === 'VarDeclarationKind') {
    const space: AddressSpace | null = it.kind.address_space;
    const mode: AccessMode | null = it.kind.access_mode;
    const group = it.attributes.find((attribute) => attribute.type === 'GroupAttribute');
    console.log(end, space, mode, it.ty?.ident, group);
  } else if (it.type === 'Function') {
    const statements: number = it.body.statements.length;
    console.log(statements, it.return_type?.template_args);
  }
}

const offsets = new Uint32Array(4);
const expression: Expression = treeOf(new Uint8Array(), offsets, 'Expression');
if (expression.type === 'BinaryExpression') {
  const left: Spanned<Expression> = expression.left;
  console.log(left.span.start, expression.operator === '+');
}

const name = { type: 'TypeExpression', ident: 'a', template_args: null } as const;
const sum = { type: 'BinaryExpression', operator: '+', left: name, right: name } as const;
const form: Uint8Array = packed(sum);
console.log(form, packed(unit), packed(expression));

// @ts-expect-error: a field is not there
packed({ type: 'TypeExpression', ident: 'a' });
// @ts-expect-error: no operator
packed({ ...sum, operator: '=' });
// @ts-expect-error: no node
packed({ type: 'Other' });
// @ts-expect-error: not a kind that is read
treeOf(new Uint8Array(), null, 'Attribute');
