# Sends the letter A and stops.
#
#   xt asm < letter.s > letter.img
#   xt dis --flow < letter.img
#
# A store of a byte to 3FF40000 makes UART0 send it. That address has 32 bits, and no instruction of 24 bits can hold it. So it
# stands in memory as a word of its own, and L32R fetches it from there. L32R looks backwards only: the word has to stand before
# the instruction. `.literal_position` says where such words are to stand, and `=` asks for one.

.seg 0x40080400                 # from here on in the internal instruction memory
.entry start                    # where the cores begin: the label may come later

.literal_position               # at 40080400: the one word that the lines below ask for
start:  l32r a2, =0x3FF40000    # at 40080404: a2 = the transmit address of UART0
        movi a3, 'A'            # at 40080407: a3 = 65
        s8i a3, a2, 0           # at 4008040A: the lowest byte of a3 goes to the address in a2
        break 1, 15             # at 4008040D: this core stops
