# Sizes of the panel, and where everything stands in the data memory.
#
# The data memory begins at 0 and is all zeros when the machine is loaded.
# The shared words, the blocks and the tables lie below 2048, where a load or
# a store reaches them with its own 12-bit offset from the register zero.

# The panel
    .equ    NEEDLES, 24             # needles of the bed
    .equ    ROWS, 4                 # rows of knitting
    .equ    GROUP, 8                # needles that are selected together
    .equ    LEAD, 2 * GROUP         # selection is at most so far ahead
    .equ    PANEL, NEEDLES * ROWS   # needles to pass in all
    .equ    REPORT, 8               # the carriage reports each 8th needle

# Yarn, in millimetres
    .equ    KNIT_YARN, 6            # drawn by a needle that knits
    .equ    MISS_YARN, 2            # drawn past a needle that does not
    .equ    FEED_REPORT, 5          # the feed reports each 5th turn

# Numbers of the tasks: what the lock holds, and the head of a message
    .equ    CARRIAGE, 1
    .equ    SELECTION, 2
    .equ    YARN, 3

# Shared words
    .equ    LOCK, 0x00              # 0: free; else the task that has it
    .equ    BUS_NEXT, 0x04          # where the bus puts its next word
    .equ    PASSED, 0x08            # needles passed, over all rows
    .equ    CHOSEN, 0x0c            # needles selected, over all rows
    .equ    SELECTORS, 0x10         # bit n is set: needle n will knit
    .equ    POSITION, 0x14          # the needle at which the carriage is
    .equ    HOLES, 0x18             # needles passed before they were selected
    .equ    DRAWN, 0x1c             # yarn drawn by the needles
    .equ    FED, 0x20               # yarn fed from the cone
    .equ    TENSION, 0x24           # smoothed reading of the sensor, in 1/16 mm
    .equ    TIGHTEST, 0x28          # the highest that it was

# One control block of 32 bytes for each task
    .equ    BLOCKS, 0x40
    .equ    BLOCK_SIZE, 32
    .equ    TASK_SP, 0              # its stack pointer while it does not run
    .equ    TASK_NEXT, 4            # the block of the task after it
    .equ    TASK_NUMBER, 8          # CARRIAGE, SELECTION or YARN
    .equ    TASK_TURNS, 12          # turns that it had
    .equ    TASK_TAKES, 16          # how often it took the lock
    .equ    TASK_WAITED, 20         # turns that it waited for it, in all
    .equ    TASK_WORST, 24          # the most that it waited for one take

# Tables
    .equ    MOTIF, 0xa0             # a byte for each row, bit 0 the left needle
    .equ    FABRIC, 0xb0            # a word for each row, bit n: needle n knitted
    .equ    BUS, 0x100              # all words that went over the bus

# Stacks of 256 bytes, downwards from the end of the 4096 bytes. A stack
# pointer is a multiple of 4, which is enough here; the ABI has 16.
    .equ    STACKS, 4096
