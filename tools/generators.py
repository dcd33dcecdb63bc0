"""The generator that draws what a number makes: PCG XSH RR 64/32 (O'Neill), with the seed that `seed_from_u64` of Rust's rand_core makes."""

WIDTH = 2**64
MULTIPLIER = 6364136223846793005
# the increment of the words that a seed is made of
SEEDING = 11634580027462260723


def word_of(state):
    """The output of a state: its high bits, rotated to the right by its five highest."""
    mixed = ((state >> 18 ^ state) >> 27) % 2**32
    turn = state >> 59
    return (mixed >> turn | mixed << (32 - turn)) % 2**32


def seed_of(number):
    """The four words of a seed: each is that of the state after its step."""
    state = number % WIDTH
    for _ in range(4):
        state = (state * MULTIPLIER + SEEDING) % WIDTH
        yield word_of(state)


def words_of(number):
    """The words of a number, without end: each is that of the state before its step."""
    low_state, high_state, low_stream, high_stream = seed_of(number)
    increment = (high_stream << 32 | low_stream) | 1
    state = ((high_state << 32 | low_state) + increment) % WIDTH
    while True:
        state = (state * MULTIPLIER + increment) % WIDTH
        yield word_of(state)
