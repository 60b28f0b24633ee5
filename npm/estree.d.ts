// The nodes of a tree: ESTree in acorn's form. docs/ESTREE.md of the repository has the same as a table.
import type { Piece, Position } from './index';

/** What each node has. */
export interface BaseNode {
  /** In code units of UTF-16. */
  start: number;
  end: number;
  /** With `locations`. */
  loc?: { start: Position; end: Position; source?: string };
  /** With `ranges`. */
  range?: [number, number];
  /** With `directSourceFile`. */
  sourceFile?: string;
}

export interface Program extends BaseNode {
  type: 'Program';
  body: (Statement | ModuleDeclaration)[];
  sourceType: 'script' | 'module';
  comments?: Piece[];
  tokens?: Piece[];
}

export interface Identifier extends BaseNode {
  type: 'Identifier';
  name: string;
}

export interface PrivateIdentifier extends BaseNode {
  type: 'PrivateIdentifier';
  name: string;
}

export interface Literal extends BaseNode {
  type: 'Literal';
  value: string | number | boolean | bigint | RegExp | null;
  raw: string;
  bigint?: string;
  regex?: { pattern: string; flags: string };
}

export interface TemplateElement extends BaseNode {
  type: 'TemplateElement';
  value: { raw: string; cooked: string | null };
  tail: boolean;
}

export interface ThisExpression extends BaseNode {
  type: 'ThisExpression';
}

export interface Super extends BaseNode {
  type: 'Super';
}

export interface Invalid extends BaseNode {
  type: 'Invalid';
}

export interface ExpressionStatement extends BaseNode {
  type: 'ExpressionStatement';
  expression: Expression;
  directive?: string;
}

export interface BlockStatement extends BaseNode {
  type: 'BlockStatement';
  body: Statement[];
}

export interface StaticBlock extends BaseNode {
  type: 'StaticBlock';
  body: Statement[];
}

export interface EmptyStatement extends BaseNode {
  type: 'EmptyStatement';
}

export interface DebuggerStatement extends BaseNode {
  type: 'DebuggerStatement';
}

export interface WithStatement extends BaseNode {
  type: 'WithStatement';
  object: Expression;
  body: Statement;
}

export interface ReturnStatement extends BaseNode {
  type: 'ReturnStatement';
  argument: Expression | null;
}

export interface ThrowStatement extends BaseNode {
  type: 'ThrowStatement';
  argument: Expression;
}

export interface LabeledStatement extends BaseNode {
  type: 'LabeledStatement';
  body: Statement;
  label: Identifier;
}

export interface BreakStatement extends BaseNode {
  type: 'BreakStatement';
  label: Identifier | null;
}

export interface ContinueStatement extends BaseNode {
  type: 'ContinueStatement';
  label: Identifier | null;
}

export interface IfStatement extends BaseNode {
  type: 'IfStatement';
  test: Expression;
  consequent: Statement;
  alternate: Statement | null;
}

export interface SwitchStatement extends BaseNode {
  type: 'SwitchStatement';
  discriminant: Expression;
  cases: SwitchCase[];
}

export interface SwitchCase extends BaseNode {
  type: 'SwitchCase';
  consequent: Statement[];
  test: Expression | null;
}

export interface TryStatement extends BaseNode {
  type: 'TryStatement';
  block: BlockStatement;
  handler: CatchClause | null;
  finalizer: BlockStatement | null;
}

export interface CatchClause extends BaseNode {
  type: 'CatchClause';
  param: Pattern | null;
  body: BlockStatement;
}

export interface WhileStatement extends BaseNode {
  type: 'WhileStatement';
  test: Expression;
  body: Statement;
}

export interface DoWhileStatement extends BaseNode {
  type: 'DoWhileStatement';
  body: Statement;
  test: Expression;
}

export interface ForStatement extends BaseNode {
  type: 'ForStatement';
  init: VariableDeclaration | Expression | null;
  test: Expression | null;
  update: Expression | null;
  body: Statement;
}

export interface ForInStatement extends BaseNode {
  type: 'ForInStatement';
  left: VariableDeclaration | Pattern;
  right: Expression;
  body: Statement;
}

export interface ForOfStatement extends BaseNode {
  type: 'ForOfStatement';
  await: boolean;
  left: VariableDeclaration | Pattern;
  right: Expression;
  body: Statement;
}

export interface VariableDeclaration extends BaseNode {
  type: 'VariableDeclaration';
  declarations: VariableDeclarator[];
  kind: 'var' | 'let' | 'const' | 'using' | 'await using';
}

export interface VariableDeclarator extends BaseNode {
  type: 'VariableDeclarator';
  id: Pattern;
  init: Expression | null;
}

export interface FunctionDeclaration extends BaseNode {
  type: 'FunctionDeclaration';
  id: Identifier | null;
  expression: false;
  generator: boolean;
  async: boolean;
  params: Pattern[];
  body: BlockStatement;
}

export interface FunctionExpression extends BaseNode {
  type: 'FunctionExpression';
  id: Identifier | null;
  expression: false;
  generator: boolean;
  async: boolean;
  params: Pattern[];
  body: BlockStatement;
}

export interface ArrowFunctionExpression extends BaseNode {
  type: 'ArrowFunctionExpression';
  id: null;
  expression: boolean;
  generator: false;
  async: boolean;
  params: Pattern[];
  body: BlockStatement | Expression;
}

export interface ClassDeclaration extends BaseNode {
  type: 'ClassDeclaration';
  id: Identifier | null;
  superClass: Expression | null;
  body: ClassBody;
  decorators?: Decorator[];
}

export interface ClassExpression extends BaseNode {
  type: 'ClassExpression';
  id: Identifier | null;
  superClass: Expression | null;
  body: ClassBody;
  decorators?: Decorator[];
}

export interface ClassBody extends BaseNode {
  type: 'ClassBody';
  body: (MethodDefinition | PropertyDefinition | AccessorProperty | StaticBlock)[];
}

export interface MethodDefinition extends BaseNode {
  type: 'MethodDefinition';
  static: boolean;
  computed: boolean;
  key: Expression | PrivateIdentifier;
  kind: 'constructor' | 'method' | 'get' | 'set';
  value: FunctionExpression;
  decorators?: Decorator[];
}

export interface PropertyDefinition extends BaseNode {
  type: 'PropertyDefinition';
  static: boolean;
  computed: boolean;
  key: Expression | PrivateIdentifier;
  value: Expression | null;
  decorators?: Decorator[];
}

export interface AccessorProperty extends BaseNode {
  type: 'AccessorProperty';
  static: boolean;
  computed: boolean;
  key: Expression | PrivateIdentifier;
  value: Expression | null;
  decorators?: Decorator[];
}

export interface Decorator extends BaseNode {
  type: 'Decorator';
  expression: Expression;
}

export interface ArrayExpression extends BaseNode {
  type: 'ArrayExpression';
  elements: (Expression | SpreadElement | null)[];
}

export interface ArrayPattern extends BaseNode {
  type: 'ArrayPattern';
  elements: (Pattern | null)[];
}

export interface ObjectExpression extends BaseNode {
  type: 'ObjectExpression';
  properties: (Property | SpreadElement)[];
}

export interface ObjectPattern extends BaseNode {
  type: 'ObjectPattern';
  properties: (Property | RestElement)[];
}

export interface Property extends BaseNode {
  type: 'Property';
  method: boolean;
  shorthand: boolean;
  computed: boolean;
  key: Expression;
  value: Expression | Pattern;
  kind: 'init' | 'get' | 'set';
}

export interface SpreadElement extends BaseNode {
  type: 'SpreadElement';
  argument: Expression;
}

export interface RestElement extends BaseNode {
  type: 'RestElement';
  argument: Pattern;
}

export interface AssignmentPattern extends BaseNode {
  type: 'AssignmentPattern';
  left: Pattern;
  right: Expression;
}

export interface UnaryExpression extends BaseNode {
  type: 'UnaryExpression';
  operator: '-' | '+' | '!' | '~' | 'typeof' | 'void' | 'delete';
  prefix: true;
  argument: Expression;
}

export interface UpdateExpression extends BaseNode {
  type: 'UpdateExpression';
  operator: '++' | '--';
  prefix: boolean;
  argument: Expression;
}

export interface BinaryExpression extends BaseNode {
  type: 'BinaryExpression';
  left: Expression | PrivateIdentifier;
  operator: BinaryOperator;
  right: Expression;
}

export interface LogicalExpression extends BaseNode {
  type: 'LogicalExpression';
  left: Expression;
  operator: '||' | '&&' | '??';
  right: Expression;
}

export interface AssignmentExpression extends BaseNode {
  type: 'AssignmentExpression';
  operator: AssignmentOperator;
  left: Pattern | Expression;
  right: Expression;
}

export interface ConditionalExpression extends BaseNode {
  type: 'ConditionalExpression';
  test: Expression;
  consequent: Expression;
  alternate: Expression;
}

export interface SequenceExpression extends BaseNode {
  type: 'SequenceExpression';
  expressions: Expression[];
}

export interface MemberExpression extends BaseNode {
  type: 'MemberExpression';
  object: Expression | Super;
  property: Expression | PrivateIdentifier;
  computed: boolean;
  optional: boolean;
}

export interface CallExpression extends BaseNode {
  type: 'CallExpression';
  callee: Expression | Super;
  arguments: (Expression | SpreadElement)[];
  optional: boolean;
}

export interface ChainExpression extends BaseNode {
  type: 'ChainExpression';
  expression: MemberExpression | CallExpression;
}

export interface TemplateLiteral extends BaseNode {
  type: 'TemplateLiteral';
  expressions: Expression[];
  quasis: TemplateElement[];
}

export interface TaggedTemplateExpression extends BaseNode {
  type: 'TaggedTemplateExpression';
  tag: Expression;
  quasi: TemplateLiteral;
}

export interface NewExpression extends BaseNode {
  type: 'NewExpression';
  callee: Expression;
  arguments: (Expression | SpreadElement)[];
}

export interface ImportExpression extends BaseNode {
  type: 'ImportExpression';
  source: Expression;
  options: Expression | null;
  phase?: 'source' | 'defer';
}

export interface MetaProperty extends BaseNode {
  type: 'MetaProperty';
  meta: Identifier;
  property: Identifier;
}

export interface YieldExpression extends BaseNode {
  type: 'YieldExpression';
  delegate: boolean;
  argument: Expression | null;
}

export interface AwaitExpression extends BaseNode {
  type: 'AwaitExpression';
  argument: Expression;
}

export interface ImportDeclaration extends BaseNode {
  type: 'ImportDeclaration';
  specifiers: (ImportSpecifier | ImportDefaultSpecifier | ImportNamespaceSpecifier)[];
  source: Literal;
  attributes: ImportAttribute[];
  phase?: 'source' | 'defer';
}

export interface ImportAttribute extends BaseNode {
  type: 'ImportAttribute';
  key: Identifier | Literal;
  value: Literal;
}

export interface ImportSpecifier extends BaseNode {
  type: 'ImportSpecifier';
  imported: Identifier | Literal;
  local: Identifier;
}

export interface ImportDefaultSpecifier extends BaseNode {
  type: 'ImportDefaultSpecifier';
  local: Identifier;
}

export interface ImportNamespaceSpecifier extends BaseNode {
  type: 'ImportNamespaceSpecifier';
  local: Identifier;
}

export interface ExportNamedDeclaration extends BaseNode {
  type: 'ExportNamedDeclaration';
  declaration: Declaration | null;
  specifiers: (ExportSpecifier | ExportDefaultSpecifier | ExportNamespaceSpecifier)[];
  source: Literal | null;
  attributes: ImportAttribute[];
}

export interface ExportSpecifier extends BaseNode {
  type: 'ExportSpecifier';
  local: Identifier | Literal;
  exported: Identifier | Literal;
}

export interface ExportDefaultSpecifier extends BaseNode {
  type: 'ExportDefaultSpecifier';
  exported: Identifier;
}

export interface ExportNamespaceSpecifier extends BaseNode {
  type: 'ExportNamespaceSpecifier';
  exported: Identifier | Literal;
}

export interface ExportDefaultDeclaration extends BaseNode {
  type: 'ExportDefaultDeclaration';
  declaration: FunctionDeclaration | ClassDeclaration | Expression;
}

export interface ExportAllDeclaration extends BaseNode {
  type: 'ExportAllDeclaration';
  exported: Identifier | Literal | null;
  source: Literal;
  attributes: ImportAttribute[];
}

export type BinaryOperator =
  | '==' | '!=' | '===' | '!==' | '<' | '<=' | '>' | '>=' | '<<' | '>>' | '>>>' | '+' | '-' | '*' | '/' | '%' | '**' | '|' | '^' | '&'
  | 'in' | 'instanceof';

export type AssignmentOperator =
  | '=' | '+=' | '-=' | '*=' | '/=' | '%=' | '**=' | '<<=' | '>>=' | '>>>=' | '|=' | '^=' | '&=' | '||=' | '&&=' | '??=';

export type Expression =
  | Identifier
  | Literal
  | ThisExpression
  | ArrayExpression
  | ObjectExpression
  | FunctionExpression
  | ArrowFunctionExpression
  | ClassExpression
  | UnaryExpression
  | UpdateExpression
  | BinaryExpression
  | LogicalExpression
  | AssignmentExpression
  | ConditionalExpression
  | SequenceExpression
  | MemberExpression
  | CallExpression
  | ChainExpression
  | TemplateLiteral
  | TaggedTemplateExpression
  | NewExpression
  | ImportExpression
  | MetaProperty
  | YieldExpression
  | AwaitExpression
  | Invalid;

export type Declaration =
  | VariableDeclaration
  | FunctionDeclaration
  | ClassDeclaration;

export type Statement =
  | ExpressionStatement
  | BlockStatement
  | EmptyStatement
  | DebuggerStatement
  | WithStatement
  | ReturnStatement
  | ThrowStatement
  | LabeledStatement
  | BreakStatement
  | ContinueStatement
  | IfStatement
  | SwitchStatement
  | TryStatement
  | WhileStatement
  | DoWhileStatement
  | ForStatement
  | ForInStatement
  | ForOfStatement
  | Declaration;

export type ModuleDeclaration =
  | ImportDeclaration
  | ExportNamedDeclaration
  | ExportDefaultDeclaration
  | ExportAllDeclaration;

export type Pattern =
  | Identifier
  | MemberExpression
  | ArrayPattern
  | ObjectPattern
  | AssignmentPattern
  | RestElement
  | Invalid;

/** Any node. */
export type Node =
  | Expression
  | Statement
  | ModuleDeclaration
  | Pattern
  | Program
  | PrivateIdentifier
  | TemplateElement
  | Super
  | StaticBlock
  | SwitchCase
  | CatchClause
  | VariableDeclarator
  | ClassBody
  | MethodDefinition
  | PropertyDefinition
  | AccessorProperty
  | Decorator
  | Property
  | SpreadElement
  | ImportAttribute
  | ImportSpecifier
  | ImportDefaultSpecifier
  | ImportNamespaceSpecifier
  | ExportSpecifier
  | ExportDefaultSpecifier
  | ExportNamespaceSpecifier;
