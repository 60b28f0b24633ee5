// A text of plain JavaScript, written to be measured: `scripts/instructions` counts what a parse of it takes. It changes no more, or the
// counts before and after could not be compared. It has what programs are mostly made of, and only forms that the parser reads.
'use strict';

var version = '1.4.0';
var DEFAULTS = { width: 80, indent: 2, tabs: false, quote: "'", end: '\n' };

/**
 * A list of listeners by the name of an event.
 */
function Emitter() {
    this.listeners = {};
    this.count = 0;
}

Emitter.prototype.on = function (name, listener, context) {
    if (typeof listener !== 'function') {
        throw new TypeError('listener of ' + name + ' is no function');
    }
    var list = this.listeners[name] || (this.listeners[name] = []);
    list.push({ listener: listener, context: context || this, once: false });
    this.count += 1;
    return this;
};

Emitter.prototype.once = function (name, listener) {
    this.on(name, listener);
    var list = this.listeners[name];
    list[list.length - 1].once = true;
    return this;
};

Emitter.prototype.off = function (name, listener) {
    var list = this.listeners[name];
    if (!list) {
        return this;
    }
    for (var i = list.length - 1; i >= 0; i--) {
        if (list[i].listener === listener) {
            list.splice(i, 1);
            this.count--;
        }
    }
    if (list.length === 0) {
        delete this.listeners[name];
    }
    return this;
};

Emitter.prototype.emit = function (name) {
    var list = this.listeners[name];
    if (list === undefined) return false;
    var args = Array.prototype.slice.call(arguments, 1);
    list.slice().forEach(function (entry) {
        entry.listener.apply(entry.context, args);
        if (entry.once) {
            list.splice(list.indexOf(entry), 1);
        }
    });
    return true;
};

// ---- text

function pad(text, width, fill) {
    var result = String(text);
    while (result.length < width) {
        result = (fill === undefined ? ' ' : fill) + result;
    }
    return result;
}

function isLetter(code) {
    return (code >= 65 && code <= 90) || (code >= 97 && code <= 122) || code === 95 || code === 36 || code > 127;
}

function isDigit(code) {
    return code >= 48 && code <= 57;
}

function escape(text) {
    var out = '';
    for (var i = 0; i < text.length; ++i) {
        var character = text.charAt(i);
        switch (character) {
            case '&':
                out += '&amp;';
                break;
            case '<':
                out += '&lt;';
                break;
            case '>':
                out += '&gt;';
                break;
            case '"':
            case '\'':
                out += '&#' + text.charCodeAt(i) + ';';
                break;
            default:
                out += character;
        }
    }
    return out;
}

/** Splits a text into words, numbers, strings and signs. */
class Scanner {
    static SIGNS = '(){}[];,<>+-*%&|^!~?:=.';
    #position = 0;
    #line = 1;

    constructor(text, { comments = false, from = 0 } = {}) {
        this.text = text;
        this.comments = comments;
        this.#position = from;
    }

    get position() {
        return this.#position;
    }

    set position(value) {
        this.#position = Math.max(0, Math.min(value, this.text.length));
    }

    get done() {
        return this.#position >= this.text.length;
    }

    static of(text) {
        return new Scanner(text);
    }

    peek(offset = 0) {
        return this.text.charCodeAt(this.#position + offset);
    }

    skip() {
        while (!this.done) {
            const code = this.peek();
            if (code === 10) {
                this.#line++;
            } else if (code !== 32 && code !== 9 && code !== 13) {
                break;
            }
            this.#position++;
        }
    }

    take(test) {
        const start = this.#position;
        while (!this.done && test(this.peek())) this.#position++;
        return this.text.slice(start, this.#position);
    }

    string(quote) {
        let value = '';
        this.#position++;
        for (;;) {
            if (this.done) throw this.fault('a string has no end');
            const code = this.peek();
            this.#position++;
            if (code === quote) return value;
            if (code === 92) {
                const escaped = this.text[this.#position++];
                value += escaped === 'n' ? '\n' : escaped === 't' ? '\t' : escaped === 'r' ? '\r' : escaped;
            } else {
                value += String.fromCharCode(code);
            }
        }
    }

    fault(message) {
        const error = new SyntaxError(message + ' (line ' + this.#line + ')');
        error.position = this.#position;
        return error;
    }

    *tokens() {
        this.skip();
        while (!this.done) {
            const start = this.#position;
            const code = this.peek();
            if (isLetter(code)) {
                yield { kind: 'word', value: this.take((c) => isLetter(c) || isDigit(c)), start };
            } else if (isDigit(code)) {
                yield { kind: 'number', value: Number(this.take(isDigit)), start };
            } else if (code === 34 || code === 39) {
                yield { kind: 'string', value: this.string(code), start };
            } else if (Scanner.SIGNS.indexOf(this.text[start]) >= 0) {
                this.#position++;
                yield { kind: 'sign', value: this.text[start], start };
            } else {
                throw this.fault('unknown character ' + code.toString(16));
            }
            this.skip();
        }
    }
}

// ---- a store with the entries that were used last

class Cache extends Emitter {
    constructor(limit) {
        super();
        this.limit = limit;
        this.entries = new Map();
        this.hits = this.misses = 0;
    }

    get(key, make) {
        if (this.entries.has(key)) {
            const value = this.entries.get(key);
            this.entries.delete(key);
            this.entries.set(key, value);
            this.hits++;
            return value;
        }
        this.misses++;
        const made = make ? make(key) : undefined;
        this.set(key, made);
        return made;
    }

    set(key, value) {
        this.entries.set(key, value);
        if (this.entries.size > this.limit) {
            const [oldest] = this.entries.keys();
            this.entries.delete(oldest);
            this.emit('dropped', oldest, this.entries.size);
        }
    }

    ['size of entries']() {
        return this.entries.size;
    }

    static from(pairs, limit = pairs.length) {
        const cache = new this(limit);
        for (const [key, value] of pairs) cache.set(key, value);
        return cache;
    }
}

// ---- numbers

const EPSILON = 1e-9, GOLDEN = (1 + Math.sqrt(5)) / 2, MASK = 0xffff, FLAGS = 0b1010, MODE = 0o644, BIG = 12345678901234567890n;

function gcd(a, b) {
    return b === 0 ? a : gcd(b, a % b);
}

function hash(text, seed) {
    var high = 0xdeadbeef ^ seed, low = 0x41c6ce57 ^ seed;
    for (var i = 0, code; i < text.length; i++) {
        code = text.charCodeAt(i);
        high = Math.imul(high ^ code, 2654435761);
        low = Math.imul(low ^ code, 1597334677);
    }
    high = Math.imul(high ^ (high >>> 16), 2246822507) ^ Math.imul(low ^ (low >>> 13), 3266489909);
    low = Math.imul(low ^ (low >>> 16), 2246822507) ^ Math.imul(high ^ (high >>> 13), 3266489909);
    return 4294967296 * (2097151 & low) + (high >>> 0);
}

function Matrix(rows, columns, values) {
    this.rows = rows;
    this.columns = columns;
    this.values = values || new Array(rows * columns).fill(0);
}

Matrix.identity = function (size) {
    var result = new Matrix(size, size);
    for (var i = 0; i < size; i++) result.values[i * size + i] = 1;
    return result;
};

Matrix.prototype = {
    constructor: Matrix,
    at: function (row, column) {
        return this.values[row * this.columns + column];
    },
    times: function (other) {
        if (this.columns !== other.rows) throw new RangeError('sizes differ: ' + this.columns + ', ' + other.rows);
        var result = new Matrix(this.rows, other.columns);
        for (var i = 0; i < this.rows; i++) {
            for (var j = 0; j < other.columns; j++) {
                var sum = 0;
                for (var k = 0; k < this.columns; k++) {
                    sum += this.at(i, k) * other.at(k, j);
                }
                result.values[i * other.columns + j] = sum;
            }
        }
        return result;
    },
    power: function (n) {
        if (n === 0) return Matrix.identity(this.rows);
        if (n % 2) return this.times(this.power(n - 1));
        var half = this.power(n / 2);
        return half.times(half);
    },
    get transposed() {
        var result = new Matrix(this.columns, this.rows);
        for (var i = 0; i < this.rows; i++)
            for (var j = 0; j < this.columns; j++) result.values[j * this.rows + i] = this.at(i, j);
        return result;
    }
};

function primes(limit) {
    var sieve = [], found = [];
    next: for (var n = 2; n <= limit; n++) {
        for (var i = 0; i < found.length && found[i] ** 2 <= n; i++) {
            if (n % found[i] === 0) continue next;
        }
        found.push(n);
        sieve[n] = true;
    }
    return { sieve, found };
}

// ---- queues and graphs

const queue = (compare = (a, b) => a - b) => {
    const heap = [];
    const swap = (i, j) => {
        [heap[i], heap[j]] = [heap[j], heap[i]];
    };
    const up = (i) => {
        while (i > 0) {
            const parent = (i - 1) >> 1;
            if (compare(heap[parent], heap[i]) <= 0) return;
            swap(i, parent);
            i = parent;
        }
    };
    const down = (i) => {
        const { length } = heap;
        do {
            const left = 2 * i + 1, right = left + 1;
            let least = i;
            if (left < length && compare(heap[left], heap[least]) < 0) least = left;
            if (right < length && compare(heap[right], heap[least]) < 0) least = right;
            if (least === i) break;
            swap(i, least);
            i = least;
        } while (true);
    };
    return {
        get size() {
            return heap.length;
        },
        push(...items) {
            for (const item of items) up(heap.push(item) - 1);
        },
        pop() {
            if (heap.length < 2) return heap.pop();
            const top = heap[0];
            heap[0] = heap.pop();
            down(0);
            return top;
        }
    };
};

function shortest(graph, from, to) {
    const distances = { [from]: 0 }, before = {}, open = queue((a, b) => a.distance - b.distance);
    open.push({ node: from, distance: 0 });
    while (open.size > 0) {
        const { node, distance } = open.pop();
        if (node === to) break;
        if (distance > distances[node]) continue;
        for (const [neighbour, weight] of Object.entries(graph[node] ?? {})) {
            const candidate = distance + weight;
            if (!(neighbour in distances) || candidate < distances[neighbour]) {
                distances[neighbour] = candidate;
                before[neighbour] = node;
                open.push({ node: neighbour, distance: candidate });
            }
        }
    }
    if (!(to in distances)) return null;
    const path = [to];
    for (let node = to; node !== from; node = before[node]) path.unshift(before[node]);
    return { path, length: distances[to] };
}

// ---- an evaluator of small expressions

var OPERATORS = {
    '+': { level: 1, apply: function (a, b) { return a + b; } },
    '-': { level: 1, apply: function (a, b) { return a - b; } },
    '*': { level: 2, apply: function (a, b) { return a * b; } },
    '/': { level: 2, apply: function (a, b) { return a / b; } },
    '%': { level: 2, apply: function (a, b) { return a % b; } },
    '^': { level: 3, apply: Math.pow, right: true }
};

function evaluate(tokens, variables) {
    var place = 0;

    function primary() {
        var token = tokens[place++];
        if (!token) {
            throw new Error('an operand is missing');
        } else if (token.kind === 'number') {
            return token.value;
        } else if (token.kind === 'word') {
            if (Object.prototype.hasOwnProperty.call(variables, token.value)) {
                return variables[token.value];
            }
            throw new ReferenceError(token.value + ' is not defined');
        } else if (token.value === '(') {
            var value = binary(0);
            if (!tokens[place] || tokens[place++].value !== ')') throw new Error('a ) is missing');
            return value;
        } else if (token.value === '-') {
            return -primary();
        } else if (token.value === '+') {
            return +primary();
        } else {
            throw new Error('unexpected ' + token.value);
        }
    }

    function binary(level) {
        var left = primary();
        for (;;) {
            var token = tokens[place], operator = token && OPERATORS[token.value];
            if (!operator || operator.level < level) return left;
            place++;
            left = operator.apply(left, binary(operator.right ? operator.level : operator.level + 1));
        }
    }

    var result = binary(0);
    if (place < tokens.length) throw new Error('something is left: ' + tokens[place].value);
    return result;
}

// ---- settings

let settings = Object.assign({}, DEFAULTS);

function configure(options) {
    var unknown = [];
    for (var name in options) {
        if (!Object.prototype.hasOwnProperty.call(options, name)) continue;
        if (name in DEFAULTS && typeof options[name] === typeof DEFAULTS[name]) {
            settings[name] = options[name];
        } else unknown.push(name);
    }
    settings.width ||= 80;
    settings.indent &&= Math.min(settings.indent, 8);
    settings.end ??= '\n';
    if (unknown.length) {
        console.warn('unknown: %s', unknown.join(', '));
    }
    return settings;
}

async function load(names, read, { retries = 3, wait = 100 } = {}) {
    const texts = new Map();
    for (const name of names) {
        let attempt = 0, text;
        do {
            try {
                text = await read(name);
            } catch (error) {
                if (++attempt > retries) throw error;
                await new Promise((resolve) => setTimeout(resolve, wait * 2 ** attempt));
            } finally {
                texts.set(name, text);
            }
        } while (text === undefined);
    }
    return texts;
}

async function* lines(stream) {
    let rest = '';
    for await (const chunk of stream) {
        const parts = (rest + chunk).split('\n');
        rest = parts.pop();
        yield* parts;
    }
    if (rest !== '') yield rest;
}

// ---- dates

var MONTHS = ['January', 'February', 'March', 'April', 'May', 'June', 'July', 'August', 'September', 'October', 'November', 'December'];
var DAYS = [31, 28, 31, 30, 31, 30, 31, 31, 30, 31, 30, 31];

function isLeap(year) {
    return year % 4 === 0 && (year % 100 !== 0 || year % 400 === 0);
}

function daysOf(year, month) {
    return month === 1 && isLeap(year) ? 29 : DAYS[month];
}

function format(date, pattern) {
    var out = '', i = 0;
    while (i < pattern.length) {
        var rest = pattern.slice(i);
        if (rest.indexOf('YYYY') === 0) {
            out += date.getFullYear();
            i += 4;
        } else if (rest.indexOf('MMMM') === 0) {
            out += MONTHS[date.getMonth()];
            i += 4;
        } else if (rest.indexOf('MM') === 0) {
            out += pad(date.getMonth() + 1, 2, '0');
            i += 2;
        } else if (rest.indexOf('DD') === 0) {
            out += pad(date.getDate(), 2, '0');
            i += 2;
        } else if (rest.indexOf('hh') === 0) {
            out += pad(date.getHours(), 2, '0');
            i += 2;
        } else if (rest.indexOf('mm') === 0) {
            out += pad(date.getMinutes(), 2, '0');
            i += 2;
        } else {
            out += rest[0];
            i++;
        }
    }
    return out;
}

function calendar(year, month) {
    var first = new Date(year, month, 1).getDay(), last = daysOf(year, month), rows = [], row = [];
    for (var blank = 0; blank < first; blank++) row.push('  ');
    for (var day = 1; day <= last; day++) {
        row.push(pad(day, 2));
        if (row.length === 7 || day === last) {
            rows.push(row.join(' '));
            row = [];
        }
    }
    return MONTHS[month] + ' ' + year + settings.end + rows.join(settings.end);
}

// ---- layout

function wrap(text, width) {
    var words = text.split(' '), rows = [], row = '';
    words.forEach(function (word) {
        if (row === '') {
            row = word;
        } else if (row.length + 1 + word.length <= width) {
            row += ' ' + word;
        } else {
            rows.push(row);
            row = word;
        }
    });
    if (row) rows.push(row);
    return rows;
}

const table = (rows, { gap = 2, align = [] } = {}) => {
    const widths = rows.reduce((most, row) => row.map((cell, i) => Math.max(most[i] || 0, String(cell).length)), []);
    return rows
        .map((row) =>
            row
                .map((cell, i) => {
                    const text = String(cell), space = ' '.repeat(widths[i] - text.length);
                    return align[i] === 'right' ? space + text : text + space;
                })
                .join(' '.repeat(gap))
        )
        .join(settings.end);
};

const clone = (value, seen = new WeakMap()) => {
    if (value === null || typeof value !== 'object') return value;
    if (seen.has(value)) return seen.get(value);
    const copy = Array.isArray(value) ? [] : Object.create(Object.getPrototypeOf(value));
    seen.set(value, copy);
    for (const key of Reflect.ownKeys(value)) copy[key] = clone(value[key], seen);
    return copy;
};

function equal(a, b) {
    if (a === b) return true;
    if (typeof a !== 'object' || typeof b !== 'object' || a === null || b === null) return a !== a && b !== b;
    const keys = Object.keys(a), others = Object.keys(b);
    if (keys.length !== others.length) return false;
    return keys.every((key) => Object.hasOwn(b, key) && equal(a[key], b[key]));
}

const compose = (...steps) => (value) => steps.reduce((result, step) => step(result), value);

function main(argv) {
    const [command = 'help', ...rest] = argv;
    let status = 0;
    switch (command) {
        case 'evaluate': {
            const tokens = [...new Scanner(rest.join(' ')).tokens()];
            console.log(evaluate(tokens, { pi: Math.PI, e: Math.E, golden: GOLDEN }));
            break;
        }
        case 'calendar': {
            const [year, month] = rest.map(Number);
            console.log(calendar(year | 0, month - 1));
            break;
        }
        case 'hash':
            for (const word of rest) console.log(word, hash(word, FLAGS & MASK).toString(36));
            break;
        case 'help':
        case 'version':
            console.log(table([['version', version], ['mode', MODE.toString(8)], ['big', BIG % 97n]], { align: [, 'right'] }));
            break;
        default:
            console.error('unknown command: ' + command), (status = 2);
    }
    return void 0, status;
}

if (typeof module === 'object' && module.exports) {
    module.exports = { Emitter, Scanner, Cache, Matrix, gcd, primes, queue, shortest, evaluate, configure, load, lines, format, calendar, wrap, table, clone, equal, compose, escape, main };
} else {
    this.tools = { main: main, version };
}
