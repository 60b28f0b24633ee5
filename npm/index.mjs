import pofashere from './index.js';

export const { parse, visitorKeys, walk, StackOverflowError, version } = pofashere;
