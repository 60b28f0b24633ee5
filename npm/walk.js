'use strict';
// Which fields of a node hold nodes, in the order of the text (but of a template its texts first), and a walk by them.

const visitorKeys = {
  Program: ['body'],
  Identifier: [], PrivateIdentifier: [], Literal: [], TemplateElement: [], ThisExpression: [], Super: [], Invalid: [],
  ExpressionStatement: ['expression'],
  BlockStatement: ['body'], StaticBlock: ['body'],
  EmptyStatement: [], DebuggerStatement: [],
  WithStatement: ['object', 'body'],
  ReturnStatement: ['argument'], ThrowStatement: ['argument'],
  LabeledStatement: ['label', 'body'],
  BreakStatement: ['label'], ContinueStatement: ['label'],
  IfStatement: ['test', 'consequent', 'alternate'],
  SwitchStatement: ['discriminant', 'cases'], SwitchCase: ['test', 'consequent'],
  TryStatement: ['block', 'handler', 'finalizer'], CatchClause: ['param', 'body'],
  WhileStatement: ['test', 'body'], DoWhileStatement: ['body', 'test'],
  ForStatement: ['init', 'test', 'update', 'body'],
  ForInStatement: ['left', 'right', 'body'], ForOfStatement: ['left', 'right', 'body'],
  VariableDeclaration: ['declarations'], VariableDeclarator: ['id', 'init'],
  FunctionDeclaration: ['id', 'params', 'body'], FunctionExpression: ['id', 'params', 'body'],
  ArrowFunctionExpression: ['params', 'body'],
  ClassDeclaration: ['decorators', 'id', 'superClass', 'body'], ClassExpression: ['decorators', 'id', 'superClass', 'body'],
  ClassBody: ['body'],
  MethodDefinition: ['decorators', 'key', 'value'], PropertyDefinition: ['decorators', 'key', 'value'],
  AccessorProperty: ['decorators', 'key', 'value'],
  Decorator: ['expression'],
  ArrayExpression: ['elements'], ArrayPattern: ['elements'],
  ObjectExpression: ['properties'], ObjectPattern: ['properties'], Property: ['key', 'value'],
  SpreadElement: ['argument'], RestElement: ['argument'],
  AssignmentPattern: ['left', 'right'],
  UnaryExpression: ['argument'], UpdateExpression: ['argument'],
  BinaryExpression: ['left', 'right'], LogicalExpression: ['left', 'right'], AssignmentExpression: ['left', 'right'],
  ConditionalExpression: ['test', 'consequent', 'alternate'],
  SequenceExpression: ['expressions'],
  MemberExpression: ['object', 'property'], CallExpression: ['callee', 'arguments'], NewExpression: ['callee', 'arguments'],
  ChainExpression: ['expression'],
  TemplateLiteral: ['quasis', 'expressions'], TaggedTemplateExpression: ['tag', 'quasi'],
  ImportExpression: ['source', 'options'], MetaProperty: ['meta', 'property'],
  YieldExpression: ['argument'], AwaitExpression: ['argument'],
  ImportDeclaration: ['specifiers', 'source', 'attributes'], ImportAttribute: ['key', 'value'],
  ImportSpecifier: ['imported', 'local'], ImportDefaultSpecifier: ['local'], ImportNamespaceSpecifier: ['local'],
  ExportNamedDeclaration: ['declaration', 'specifiers', 'source', 'attributes'],
  ExportSpecifier: ['local', 'exported'], ExportDefaultSpecifier: ['exported'], ExportNamespaceSpecifier: ['exported'],
  ExportDefaultDeclaration: ['declaration'],
  ExportAllDeclaration: ['exported', 'source', 'attributes'],
};

/** The nodes that stand in a node, in order. */
function partsOf(node) {
  const parts = [];
  for (const key of visitorKeys[node.type] ?? []) {
    const part = node[key];
    if (Array.isArray(part)) parts.push(...part.filter(it => it !== null));
    else if (part) parts.push(part);
  }
  return parts;
}

/**
 * Calls `enter` before a node's parts and `leave` behind them, each with the node and what it stands in. Where `enter` answers `false` the parts
 * are left out. It does not recur, so a chain of any length is walked.
 */
function walk(root, { enter, leave } = {}) {
  const waiting = [{ node: root, parent: null, isDone: false }];
  while (waiting.length > 0) {
    const step = waiting.pop();
    if (step.isDone) {
      leave?.(step.node, step.parent);
    } else if (enter?.(step.node, step.parent) !== false) {
      waiting.push({ ...step, isDone: true });
      for (const part of partsOf(step.node).reverse()) waiting.push({ node: part, parent: step.node, isDone: false });
    }
  }
}

module.exports = { visitorKeys, walk };
