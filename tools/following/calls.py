"""What an instruction does to the stack of functions, by the E-Trace specification's rules of implicit calls and returns: x1 and x5 are
the link registers."""
from recording.image import HIGHEST_LEVEL, bits, branch_offset

LINK = 1, 5
PLAIN, JUMP, CALL, RETURN, SWAP, FROM_TRAP, BRANCH = range(7)


def kind_of(word):
    """The kind of an instruction."""
    if word in HIGHEST_LEVEL:
        return FROM_TRAP
    if branch_offset(word) is not None:
        return BRANCH
    if word & 0x7F == 0x6F:
        return CALL if bits(word, 11, 7) in LINK else JUMP
    if word & 0x707F == 0x67:
        return of_register(bits(word, 11, 7), bits(word, 19, 15))
    if word & 3 == 1 and bits(word, 15, 13) == 5:
        return JUMP
    if word & 3 == 2 and bits(word, 15, 13) == 4 and bits(word, 6, 2) == 0 and bits(word, 11, 7):
        return of_register(bits(word, 12, 12), bits(word, 11, 7))
    return PLAIN


def of_register(link, source):
    """The kind of a jump to the address in register `source` that writes where it came from to `link`."""
    if link in LINK:
        return SWAP if source in LINK and source != link else CALL
    return RETURN if source in LINK else JUMP
