// The same names as those of index.js, which a test compares.
import all from './index.js'

export * from './words.mjs'
export const { Connection } = all
export default all
