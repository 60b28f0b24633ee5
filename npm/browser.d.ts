export * from './index';

/**
 * Compiles the module: from beside this file where nothing is given, from a URL or a response, or from its bytes. `parse` throws until this is
 * done.
 */
export function load(source?: string | URL | Response | Promise<Response> | BufferSource | WebAssembly.Module): Promise<void>;
