import testing from './testing.js'

export const { joined, carry } = testing
export default testing
