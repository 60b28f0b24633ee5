// Reports each fault that stands beside the tree of a file.
'use strict';

module.exports = {
    meta: {
        type: 'problem',
        docs: { description: 'disallow what ECMA-262 calls an early error', recommended: true },
        schema: [],
    },
    create(context) {
        const services = (context.sourceCode || context.getSourceCode()).parserServices;
        return {
            Program() {
                for (const fault of services.faults || []) {
                    context.report({ loc: fault.loc, message: '{{message}} [{{kind}}]', data: fault });
                }
            },
        };
    },
};
