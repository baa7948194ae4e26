// SPDX-License-Identifier: Apache-2.0 OR BSD-3-Clause
/** What `import` gives has the types of what `require` gives. */
export * from "./superio.js";
