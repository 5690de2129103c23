"""What changes with the layout of versions, and nowhere else: the greeting's tag and the bits of clock and node."""

#: The first byte of a greeting. A server of another layout has another one, and refuses this.
HELLO_TAG = 0x07

#: A version is a number of 64 bits: the clock in the high ones, the node's number in the low ones.
CLOCK_BITS = 48
NODE_BITS = 16
