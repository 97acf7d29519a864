"""The figures of document 01 and of requests 3 and 9, each named once. Times are in bit times, lengths in bits."""

# "No leading zeros except 0 itself; a number has at most 16 digits; a line has at most 80 bytes without its LF."
MOST_DIGITS = 16
MOST_LINE_BYTES = 80

# "The program reads plan and events on standard input, at most 65,536 bytes; bytes behind these count as not there."
MOST_TEXT_BYTES = 65536

# "T, the time frame, is 100,000 to 4,000,000. O, the overhead of one packet, is 0 to 50,000."
FRAME_RANGE = 100_000, 4_000_000
OVERHEAD_RANGE = 0, 50_000

# "Limits: 32 hubs, 1 to 32 ports in a hub, 1 to 256 nodes in the plan, 5 levels, the root hub being level 1."
MOST_HUBS = 32
MOST_PORTS = 32
MOST_NODES = 256
MOST_LEVELS = 5

# A packet's length is refused "outside 512 to 12,000", and D is at least 12,000 + O; by request 3 that is framing 3, which is meant where a
# plan has no framing line, and "with 5 the longest packet is 36,000 bits and D starts at 36,000 + O". A plan has both lengths; ask it.
SHORTEST_PACKET = 512
LONGEST_PACKETS = {3: 12_000, 5: 36_000}  # framing -> longest packet
FRAMING_MEANT = 3

# Refused is an "n above 64", and a "t above 10^15".
MOST_PACKETS = 64
LATEST_TIME = 10**15

# By request 9, "a buyer planning a line offers up to 64 reservations" in one call.
MOST_OFFERS = 64
