"""The memory of a map: how many requests each change of its capacity makes, in which order, and for
how many bytes.

The capacity is the number of pairs that fit. There are as many buckets as the capacity, rounded up
to a power of two, or none at 0. Each bucket has a head and a word of the filter, and one block has
the heads and the words of all.

A growth asks, in this order, for
- a block of buckets, if it needs more than there is room for: it has as much room as there are
  buckets when it is asked for, but room for 4 if these are fewer, and there is none for 0;
- a chunk, if there are fewer nodes than the new capacity. It has the nodes that are missing. A
  growth by one makes it at least two nodes, or from 16 nodes on half as many as there are, at most
  64, and at most as many as there are then buckets beyond the nodes, or with one bucket two.

If one is refused, the growth gives back the buckets, and the capacity stays. What is made anew (a
map with a capacity, a clone, the nodes of a shrinking) is given back as a whole.

A shrinking to fewer buckets asks for a new block of these and then, as a new ring does, for one
chunk of exactly the pairs. With as many buckets it asks for nothing, and the nodes stay; without
pairs it frees all. No other call asks for memory for pairs.
"""

LIMIT = 2**59
# A chunk that a growth by one makes has this many nodes until there are enough for half as many.
FIRST_AHEAD, ENOUGH = 2, 16
# It has no more nodes beyond those that are missing.
MOST_AHEAD = 64
# How many buckets the first block has room for.
FIRST_ROOM = 4
# The bytes of a bucket: a head and a word. A node has so many besides its pair, and so has a chunk
# besides its nodes.
BUCKET, NODE, CHUNK = 10, 32, 16
# The bytes of a key and of a value of the driver, of a number, and of a position in a map.
KEY, VALUE, NUMBER, POSITION = 48, 40, 8, 8
# A request for so many bytes is refused on any machine.
NO_MACHINE = 2**47


def buckets_for(capacity):
    """Returns the capacity rounded up to a power of two, or 0 for 0."""
    return 1 << (capacity - 1).bit_length() if capacity else 0


def is_given_buckets(count, effects):
    """Asks for a block of buckets, and returns whether it is given."""
    size = max(count, FIRST_ROOM) * BUCKET
    return count == 0 or effects.ask(size) and size < NO_MACHINE


class Memory:
    """The capacity, the buckets, the nodes and the chunks of a map, and how many nodes rehashes
    have moved since the capacity was lowered."""

    __slots__ = ("capacity", "buckets", "nodes", "chunks", "rechained")

    def __init__(self):
        self.free()

    def free(self):
        """Frees all."""
        self.capacity = self.buckets = self.nodes = self.chunks = self.rechained = 0

    def is_given_chunk(self, nodes, effects):
        """Asks for a chunk, and returns whether it is given."""
        if not effects.ask_for_nodes(nodes):
            return False
        self.nodes += nodes
        self.chunks += 1
        return True

    def is_given_nodes(self, capacity, buckets, effects):
        """Makes as many nodes as a capacity needs, and further ones if it rises by one."""
        missing = capacity - self.nodes
        if missing <= 0:
            return True
        ahead = 0
        if capacity == self.capacity + 1:
            ahead = FIRST_AHEAD if self.nodes < ENOUGH else self.nodes // 2
            ahead = min(ahead, max(FIRST_AHEAD, buckets) - self.nodes, MOST_AHEAD)
        return self.is_given_chunk(max(missing, ahead), effects)

    def is_raised(self, capacity, length, effects):
        """Raises the capacity of a map of so many pairs, if memory is given."""
        buckets = buckets_for(capacity)
        rehashes = buckets > self.buckets
        has_room = self.buckets > 0 and buckets <= FIRST_ROOM
        if rehashes and not has_room and not is_given_buckets(buckets, effects):
            return False
        if not self.is_given_nodes(capacity, max(buckets, self.buckets), effects):
            return False
        if rehashes:
            self.buckets = buckets
            self.rechained += length
        self.capacity = capacity
        return True

    def is_made(self, capacity, length, effects):
        """Gives a new map its capacity, which is not 0, with exactly as many nodes, if memory is
        given."""
        buckets = buckets_for(capacity)
        if not is_given_buckets(buckets, effects) or not self.is_given_chunk(capacity, effects):
            return False
        self.capacity, self.buckets, self.rechained = capacity, buckets, length
        return True

    def has_room(self, length, effects):
        """Raises a full capacity by one, and returns whether there is room for one more pair."""
        if length < self.capacity:
            return True
        if self.capacity == LIMIT:
            return False
        return self.is_raised(self.capacity + 1, length, effects)

    def reserve(self, additional, length, effects):
        """Raises the capacity if it is below the pairs and so many more. Returns `None` or the
        error."""
        wanted = length + additional
        if wanted > LIMIT:
            return "TooLarge"
        if wanted <= self.capacity or self.is_raised(wanted, length, effects):
            return None
        return "NoRoom"

    def is_shrunk(self, length, effects):
        """Lowers the capacity to the number of pairs, if memory is given."""
        if length == 0:
            self.free()
            return True
        if length == self.capacity:
            return True
        buckets = buckets_for(length)
        if buckets == self.buckets:
            self.capacity = length
            self.rechained = 0
            return True
        fresh = Memory()
        if not fresh.is_made(length, length, effects):
            return False
        for name in Memory.__slots__:
            setattr(self, name, getattr(fresh, name))
        return True


def made(capacity, effects):
    """Returns the memory of a new map of a capacity, or `None` if it is refused."""
    memory = Memory()
    if capacity > LIMIT:
        return None
    if capacity and not memory.is_made(capacity, 0, effects):
        return None
    return memory


def error_of(capacity):
    """Returns the error of a map that was refused a capacity."""
    return "TooLarge" if capacity > LIMIT else "NoRoom"
